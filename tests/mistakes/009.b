GET "LIBHDR2"

LET COUNTA(S) = VALOF
$( LET N = 0
   FOR I = 1 TO S%0 DO
      IF S!I = 'A' DO N := N + 1
   RESULTIS N
$)

LET REPORT(S) BE
$( LET N = COUNTA(S)
   WRITEF("%S has %N letters, %N of them A*N", S, S%0, N)
$)

LET START() BE
$( REPORT("BANANA")
   REPORT("ABRACADABRA")
   REPORT("XYZ")
$)
