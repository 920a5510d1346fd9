// Game of life on a small board
GET "LIBHDR"
MANIFEST $( N = 8; CELLS = 63 $)

LET NEIGHBOURS(B, X, Y) = VALOF
$( LET S = 0
   FOR DY = -1 TO 1 DO
      FOR DX = -1 TO 1 DO
         S := S + B!((Y + DY) * N + X + DX)
   RESULTIS S - B!(Y * N + X)
$)

LET NEXTGEN(OLD, NEW) BE
$( FOR I = 0 TO CELLS DO NEW!I := 0
   FOR Y = 0 TO N - 1 DO
      FOR X = 1 TO N - 2 DO
      $( LET C = NEIGHBOURS(OLD, X, Y)
         IF C = 3 | C = 2 & OLD!(Y * N + X) = 1 DO
            NEW!(Y * N + X) := 1
      $)
$)

LET SHOW(B) BE
$( FOR Y = 0 TO N - 1 DO
   $( FOR X = 0 TO N - 1 DO WRCH(B!(Y * N + X) = 1 -> '**', '.')
      NEWLINE()
   $)
   NEWLINE()
$)

LET START() BE
$( LET A, B = VEC CELLS, VEC CELLS
   FOR I = 0 TO CELLS DO A!I := 0
   A!10, A!19, A!25, A!26, A!27 := 1, 1, 1, 1, 1
   SHOW(A)
   FOR GEN = 1 TO 4 DO
   $( NEXTGEN(A, B)
      FOR I = 0 TO CELLS DO A!I := B!I
      SHOW(A)
   $)
$)
