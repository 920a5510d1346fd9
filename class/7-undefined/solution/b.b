GET "LIBHDR"

// The squares of 1 to 5: 1 4 9 16 25.
LET SQUARES(V, N) BE
   FOR I = 1 TO N DO V!I := I * I

LET START() BE
$( LET S = VEC 5
   SQUARES(S, 5)
   FOR I = 1 TO 5 DO
   $( WRITEN(S!I)
      WRCH('*S')
   $)
$)
