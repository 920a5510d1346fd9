// The heap of a program that has none of its own: START of heap.b calls this one.
GET "LIBHDR2"
GLOBAL $( START:940; GETVEC:921; FREEVEC:922 $)
STATIC $( SEED = 7 $)
LET NEXT(N) = VALOF
$( SEED := SEED * 2147001325 + 715136305
   RESULTIS (SEED >> 8) REM N
$)
// Vectors that are taken and given back at random, of all sizes, some of which no heap has. Each keeps its words.
LET ATRANDOM(V, STEPS) BE
$( FOR I = 0 TO 100 DO V!I := 0
   FOR STEP = 1 TO STEPS DO
   $( LET I = NEXT(101)
      LET P = V!I
      TEST P = 0 DO
      $( LET K = NEXT(10) = 0 -> NEXT(9000), NEXT(20) = 0 -> NEXT(256) << 24, NEXT(60) - 2
         P := GETVEC(K)
         UNLESS P = 0 DO
         $( P!0 := K
            FOR J = 1 TO K DO IF J < 10 | J = K DO P!J := I * 10000 + J
            V!I := P
         $)
      $)
      OR
      $( FOR J = 1 TO P!0 DO IF J < 10 | J = P!0 DO UNLESS P!J = I * 10000 + J DO WRITES("WRONG*N")
         FREEVEC(P)
         V!I := 0
      $)
   $)
   FOR I = 0 TO 100 DO FREEVEC(V!I)
$)
LET START() BE
$( LET LIST, N = 0, 0
   LET V = VEC 100
   ATRANDOM(V, 1000)
   // four vectors of 32,768 words
   $( LET V = GETVEC(999)
      IF V = 0 BREAK
      V!0, V!999 := LIST, N
      LIST, N := V, N + 1
   $) REPEAT
   WRITEF("%N %N*N", N, GETVEC(32764))
   UNTIL LIST = 0 DO
   $( LET V = LIST!0
      N := N - 1
      UNLESS LIST!999 = N DO WRITES("WRONG*N")
      FREEVEC(LIST)
      LIST := V
   $)
   WRITEF("%N %N %N*N", N, GETVEC(32765), GETVEC(32764)!(-1))
$)
