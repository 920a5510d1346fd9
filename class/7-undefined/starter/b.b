GET "LIBHDR"

// The squares of 1 to 5: 1 4 9 16 25.
LET SQUARES(N) = VALOF
$( LET V = VEC 5
   FOR I = 1 TO N DO V!I := I * I
   RESULTIS V
$)

LET START() BE
$( LET S = SQUARES(5)
   FOR I = 1 TO 5 DO
   $( WRITEN(S!I)
      WRCH('*S')
   $)
$)
