// GOTO into a loop and out of a VALOF.
GET "LIBHDR"

LET FIND(V, N, X) = VALOF
$( FOR I = 0 TO N - 1 DO IF V!I = X RESULTIS I
   RESULTIS -1
$)

LET START() BE
$( LET N = 10
   GOTO MIDDLE
   WHILE N > 0 DO
   $( WRITEN(N); WRCH(' ')
MIDDLE: N := N - 3
   $)
   WRITEN(FIND((TABLE 7, 8, 9), 3, 9)); NEWLINE()
   WRITEN(1 + VALOF $( IF N < 0 GOTO END; RESULTIS 1 $))
END:
   NEWLINE()
$)
