GET "LIBHDR"

LET READWORD() = VALOF
$( LET BUF = VEC 20
   LET N, C = 0, RDCH()
   WHILE C = '*S' | C = '*N' DO C := RDCH()
   WHILE 'A' <= C <= 'Z' DO
   $( N := N + 1
      PUTBYTE(BUF, N, C)
      C := RDCH()
   $)
   PUTBYTE(BUF, 0, N)
   RESULTIS BUF
$)

LET GREET(NAME) BE
$( WRITES("HELLO, ")
   WRITES(NAME)
   NEWLINE()
$)

LET START() BE
$( LET FIRST = READWORD()
   GREET(FIRST)
$)
