GET "LIBHDR2"

LET CUBE(N) BE
$( N := N * N * N
$)

LET CHECK(X, Y) BE
$( LET R = X - CUBE(Y)
   TEST R = 0
   THEN WRITEF("%N is the cube of %N*N", X, Y)
   ELSE WRITEF("%N is not the cube of %N (off by %N)*N", X, Y, R)
$)

LET START() BE
$( WRITES("Cubes*N")
   CHECK(27, 3)
   CHECK(64, 4)
   CHECK(100, 5)
$)
