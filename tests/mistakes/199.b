// makes a string upper case in a copy
GET "LIBHDR"

LET UPPER(C) = 'a' <= C <= 'z' -> C - 'a' + 'A', C

LET COPYUPPER(FROM, TARGET) BE
$( LET N = GETBYTE(FROM, 0)
   PUTBYTE(TARGET, 0, N)
   FOR I = 1 TO N DO
   $( LET C = GETBYTE(FROM, I)
      PUTBYTE(TARGET, UPPER(C), I)
   $)
$)

LET START() BE
$( LET COPY = VEC 10
   COPYUPPER("Hello there, World", COPY)
   WRITES(COPY)
   NEWLINE()
   COPYUPPER("bcpl", COPY)
   WRITES(COPY)
   NEWLINE()
$)
