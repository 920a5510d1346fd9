GET "LIBHDR2"

LET DOT(A, B, N) = VALOF
$( LET SUM, I = ?, 0
   WHILE I < N DO
   $( SUM := SUM + A!I * B!I
      I := I + 1
   $)
   RESULTIS SUM
$)

LET PRINTV(V, N) BE
$( WRCH('(')
   FOR I = 0 TO N-1 DO $( WRITEN(V!I); UNLESS I = N-1 DO WRCH(',') $)
   WRCH(')')
$)

LET START() BE
$( LET A = TABLE 1, 2, 3
   LET B = TABLE 4, -5, 6
   PRINTV(A, 3); WRITES(" . "); PRINTV(B, 3)
   WRITEF(" = %N*N", DOT(A, B, 3))
$)
