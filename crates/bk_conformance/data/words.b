GET "LIBHDR2"
LET START() BE
$( LET A, B = 17, 5
   LET MAX = A > B -> A, B
   WRITEF("%N %N %N*N", A / B, A REM B, MAX)
   WRITEF("%N %N %N*N", A & B, A | B, A NEQV B)
   WRITEF("%N %N %N*N", A << 1, A = B, A ~= B)
   A, B := B, A
   WRITEF("%N %N*N", A, B)
$)
