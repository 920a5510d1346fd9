GET "LIBHDR"
MANIFEST $( SIZE = 9 $)

LET CLEAR(V, N, X) BE
$( LET I = N - 1
   $( V!I := X
      I := I - 1
   $) REPEATUNTIL I < 0
$)

LET SHOW(V, N) BE
$( FOR I = 0 TO N - 1 DO
   $( WRCH(V!I)
      IF I REM 3 = 2 DO NEWLINE()
   $)
$)

LET START() BE
$( LET BOARD = VEC SIZE
   CLEAR(SIZE, BOARD, '.')
   BOARD!4 := 'X'
   BOARD!0 := 'O'
   SHOW(BOARD, SIZE)
$)
