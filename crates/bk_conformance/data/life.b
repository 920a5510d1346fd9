// Life on a small torus: a glider, and where it is after each of four turns.
GET "LIBHDR"
MANIFEST $( SIZE = 6; CELLS = SIZE * SIZE $)

LET AT(V, X, Y) = V!((X + SIZE) REM SIZE + (Y + SIZE) REM SIZE * SIZE)

LET NEIGHBOURS(V, X, Y) = VALOF
$( LET N = 0
   FOR I = -1 TO 1 DO
      FOR J = -1 TO 1 DO
      $( IF I = 0 & J = 0 LOOP
         N := N + AT(V, X + I, Y + J)
      $)
   RESULTIS N
$)

LET TURN(V, W) BE
   FOR Y = 0 TO SIZE - 1 DO
      FOR X = 0 TO SIZE - 1 DO
         SWITCHON NEIGHBOURS(V, X, Y) INTO
         $( CASE 2: W!(X + Y * SIZE) := AT(V, X, Y); ENDCASE
            CASE 3: W!(X + Y * SIZE) := 1; ENDCASE
            DEFAULT: W!(X + Y * SIZE) := 0
         $)

LET SHOW(V) BE
$( FOR Y = 0 TO SIZE - 1 DO
   $( FOR X = 0 TO SIZE - 1 DO WRCH(AT(V, X, Y) = 1 -> '**', '.')
      NEWLINE()
   $)
   NEWLINE()
$)

LET START() BE
$( LET V, W = VEC CELLS, VEC CELLS
   FOR I = 0 TO CELLS - 1 DO V!I := 0
   V!1, V!(SIZE + 2) := 1, 1
   FOR X = 0 TO 2 DO V!(2 * SIZE + X) := 1
   SHOW(V)
   FOR I = 1 TO 4 DO
   $( TURN(V, W); SHOW(W)
      $( LET T = V
         V := W
         W := T
      $)
   $)
$)
