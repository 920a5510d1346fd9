GET "LIBHDR"

LET SCALE(V, N, K) BE
$( LET END.P = V + N - 1
   FOR P = V TO V + END.P DO
      !P := !P * K
$)

LET PRINT(V, N) BE
$( FOR I = 0 TO N - 1 DO
   $( WRITEN(V!I)
      WRCH('*S')
   $)
   NEWLINE()
$)

LET START() BE
$( LET V = VEC 9
   FOR I = 0 TO 9 DO V!I := I + 1
   PRINT(V, 10)
   SCALE(V, 10, 3)
   PRINT(V, 10)
$)
