// Procedures as values: a vector is sorted by an order that is handed over.
GET "LIBHDR"

LET UP(A, B) = A < B
AND DOWN(A, B) = A > B

LET SORT(V, N, BEFORE) BE
   FOR I = 1 TO N - 1 DO
   $( LET X, K = V!I, I
      UNTIL K = 0 DO
      $( UNLESS BEFORE(X, V!(K - 1)) BREAK
         V!K := V!(K - 1)
         K := K - 1
      $)
      V!K := X
   $)

LET SHOW(V, N) BE
$( FOR I = 0 TO N - 1 DO WRITED(V!I, 4)
   NEWLINE()
$)

LET START() BE
$( LET V = TABLE 31, 4, 15, 92, 6, 53, 58, 9
   SORT(V, 8, UP); SHOW(V, 8)
   SORT(V, 8, DOWN); SHOW(V, 8)
$)
