GET "LIBHDR"

LET QUICK(V, LO, HI) BE
$( LET P, T, X = LO, ?, ?
   IF LO >= HI RETURN
   // partition around the last element
   X := V!HI
   FOR I = LO TO HI - 1 DO
      IF V!I < X DO
      $( T := V!I; V!I := V!P; V!P := T
         P := P + 1
      $)
   T := V!HI; V!HI := V!P; V!P := T
   QUICK(V, LO, P)
   QUICK(V, P + 1, HI)
$)

LET START() BE
$( LET V = VEC 9
   FOR I = 0 TO 9 DO V!I := I * 7 REM 10
   QUICK(V, 0, 9)
   FOR I = 0 TO 9 DO $( WRITEN(V!I); WRCH('*S') $)
   NEWLINE()
$)
