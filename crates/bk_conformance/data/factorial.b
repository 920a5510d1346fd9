// Recursion: the factorials of 1 to 12.
GET "LIBHDR2"

LET FACTORIAL(N) = N = 0 -> 1, N * FACTORIAL(N - 1)

LET START() BE
   FOR N = 1 TO 12 DO WRITEF("%I2! = %I9*N", N, FACTORIAL(N))
