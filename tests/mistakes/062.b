GET "LIBHDR2"

LET GCD(A, B) = VALOF
$( UNTIL B = 0 & A REM B = 0 DO
   $( LET T = A REM B
      A := B
      B := T
   $)
   RESULTIS A
$)

LET REDUCE(N, D) BE
$( LET G = GCD(N, D)
   WRITEF("%N/%N = %N/%N*N", N, D, N / G, D / G)
$)

LET START() BE
$( REDUCE(12, 18)
   REDUCE(100, 75)
   REDUCE(7, 11)
$)
