GET "LIBHDR2"

LET POWER(X, N) = VALOF
$( LET R = 1
   UNTIL N = 0 DO
   $( R := R * X
      N := N - 1
   $)
   RESULTIS R
$)

LET SQUARE(X) = POWER(X, 2)
LET CUBE(X) = POWER(X)

LET START() BE
$( WRITES(" N  SQUARE  CUBE*N")
   FOR I = 1 TO 9 DO
   $( WRITED(I, 2)
      WRITED(SQUARE(I), 8)
      WRITED(CUBE(I), 6)
      NEWLINE()
   $)
$)
