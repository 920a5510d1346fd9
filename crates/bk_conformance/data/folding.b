// Procedures as arguments and results: sums, products and greatest values by one procedure.
GET "LIBHDR2"

LET PLUS(A, B) = A + B
AND TIMES(A, B) = A * B
AND GREATER(A, B) = A > B -> A, B

LET SQUARE(X) = X * X
AND SAME(X) = X

// F of each of the N words of V, put together by G from FIRST on
LET FOLD(V, N, F, G, FIRST) = VALOF
$( LET R = FIRST
   FOR I = 0 TO N - 1 DO R := G(R, F(V!I))
   RESULTIS R
$)

LET START() BE
$( LET V = TABLE 3, 1, 4, 1, 5, 9, 2, 6
   LET SQUARED = TRUE
   WRITEF("sum %N, product %N, greatest %N*N",
      FOLD(V, 8, SAME, PLUS, 0), FOLD(V, 8, SAME, TIMES, 1), FOLD(V, 8, SAME, GREATER, 0))
   WRITEF("sum of squares %N*N", FOLD(V, 8, SQUARED -> SQUARE, SAME, PLUS, 0))
$)
