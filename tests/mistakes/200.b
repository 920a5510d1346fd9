GET "LIBHDR2"
// Table of squares, cubes and powers of two

LET POWER(BASE, EXPONENT) = VALOF
$( LET R = 1
   UNTIL EXPONENT = 0 DO
   $( IF (EXPONENT & 1) = 1 DO R := R * BASE
      BASE := BASE * BASE
      EXPONENT := EXPONENT >> 1
   $)
   RESULTIS R
$)

LET SQUARE(N) = POWER(N, 2)
AND CUBE(N) = POWER(N)
AND TWOTO(N) = POWER(2, N)

LET START() BE
$( WRITES("  N   N^2   N^3   2^N*N")
   FOR N = 1 TO 10 DO
   $( WRITED(N, 3)
      WRITED(SQUARE(N), 6)
      WRITED(CUBE(N), 6)
      WRITED(TWOTO(N), 6)
      NEWLINE()
   $)
$)
