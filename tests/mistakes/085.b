GET "LIBHDR2"
MANIFEST $( WORDS = 3 $)

LET SET(V, N) BE V!(N / 32) := V!(N / 32) | 1 << N REM 32
LET UNSET(V, N) BE V!(N / 32) := V!(N / 32) & NOT (1 << N REM 32)

// the least element of a set, -1 if it is empty
LET LEAST(V) = VALOF
$( LET P, B = V, 0
   WHILE !P = 0 DO P := P + 1
   UNTIL (!P >> B & 1) = 1 DO B := B + 1
   RESULTIS (P - V) * 32 + B
$)

LET START() BE
$( LET V = VEC WORDS - 1
   FOR I = 0 TO WORDS - 1 DO V!I := 0
   SET(V, 40)
   SET(V, 70)
   $( LET X = LEAST(V)
      IF X < 0 BREAK
      WRITEF("%N*N", X)
      UNSET(V, X)
   $) REPEAT
$)
