GET "LIBHDR"

// The sum of the numbers of a vector: 45.
LET SUM(V, N) = VALOF
$( LET S = 0
   FOR I = 0 TO N DO
      S := S + V!I
   RESULTIS S
$)

LET START() BE
$( LET V = VEC 9
   FOR I = 0 TO 9 DO V!I := I
   WRITEN(SUM(V, 10))
$)
