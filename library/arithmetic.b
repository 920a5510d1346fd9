// arithmetic.b: random numbers, and products of 64 bits.
GLOBAL $( RANDOM:930; MULDIV:931; RANDNO:932; SETSEED:933; ABS:934; RESULT2:904 $)
STATIC $( SEED = 12345 $)

// RANDOM(N) is the number after N in a row of 2^32 numbers that comes back to its beginning only after all of them. The
// high bits are the better ones: (RANDOM(N) >> 8) REM 6 throws a die.
LET RANDOM(N) = 2147001325 * N + 715136305

// RANDNO(N) is the next number at random from 1 to N; where N is below 1, it is 1.
AND RANDNO(N) = VALOF
$( SEED := RANDOM(SEED)
   RESULTIS N < 1 -> 1, ABS(SEED / 3) REM N + 1
$)

// SETSEED(N) lets the next number of RANDNO be the one after N, and gives what N was.
AND SETSEED(N) = VALOF
$( LET OLD = SEED
   SEED := N
   RESULTIS OLD
$)

// MULDIV(A, B, C) is A * B / C, where the product has 64 bits, and RESULT2 is the remainder. The quotient is rounded towards
// zero, and the remainder has the sign of the product. If the quotient has more than 32 bits, its lowest 32 are the result.
AND MULDIV(A, B, C) = VALOF
$( LET HIGH, LOW, QUOTIENT, DIVISOR = 0, 0, 0, ABS(C)
   LET X, Y = ABS(A), ABS(B)
   LET NEGATIVE = (A < 0) NEQV (B < 0)
   // HIGH and LOW are the product of X and Y: bit by bit of Y, the highest first
   FOR I = 31 TO 0 BY -1 DO
   $( HIGH := (HIGH << 1) | (LOW >> 31)
      LOW := LOW << 1
      UNLESS ((Y >> I) & 1) = 0 DO
      $( LOW := LOW + X
         IF BELOW(LOW, X) DO HIGH := HIGH + 1
      $)
   $)
   // the remainder is in HIGH, and the bits of LOW go into it, the highest first
   HIGH := UREM(HIGH, DIVISOR)
   FOR I = 31 TO 0 BY -1 DO
   $( LET CARRY = HIGH >> 31
      HIGH := (HIGH << 1) | ((LOW >> I) & 1)
      QUOTIENT := QUOTIENT << 1
      IF CARRY = 1 | ~BELOW(HIGH, DIVISOR) DO
      $( HIGH := HIGH - DIVISOR
         QUOTIENT := QUOTIENT + 1
      $)
   $)
   RESULT2 := NEGATIVE -> -HIGH, HIGH
   RESULTIS NEGATIVE NEQV (C < 0) -> -QUOTIENT, QUOTIENT
$)

// The word without its sign. That of the least number is 2^31, as a word without sign.
AND ABS(N) = N < 0 -> -N, N

// BELOW(X, Y) is true if X is below Y, both as words without sign.
AND BELOW(X, Y) = (X NEQV #X80000000) < (Y NEQV #X80000000)

// UREM(X, Y) is the remainder of X by Y, both as words without sign. A Y of 0 ends the run with division by zero.
AND UREM(X, Y) = VALOF
$( LET R = 0 REM Y
   FOR I = 31 TO 0 BY -1 DO
   $( LET CARRY = R >> 31
      R := (R << 1) | ((X >> I) & 1)
      IF CARRY = 1 | ~BELOW(R, Y) DO R := R - Y
   $)
   RESULTIS R
$)
.
