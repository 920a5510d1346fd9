GET "LIBHDR2"

LET FACT(N) = VALOF
$( IF N = 1 RESULTIS 1
   RESULTIS N * FACT(N - 1)
$)

LET SHOW(N) BE
$( WRITED(N, 4)
   WRITES("! = ")
   WRITEN(FACT(N))
   NEWLINE()
$)

LET START() BE
$( WRITES("Factorials*N")
   FOR I = 5 TO 0 BY -1 DO
      SHOW(I)
   WRITES("done*N")
$)
