GET "LIBHDR2"

LET HEADING(A, B, C) BE
$( WRITEF("%S %S %S*N", A, B, C)
   FOR I = 1 TO 14 DO WRCH('-')
   NEWLINE()
$)

LET START() BE
$( LET LIMIT = 12
   HEADING("   n", " n^2", " n^3")
   FOR I = 1 TO LIMIT DO
      WRITEF("%I4 %I4 %I4*N", I, I * I)
   WRITEF("%N lines*N", LIMIT)
$)
