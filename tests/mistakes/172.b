GET "LIBHDR"
MANIFEST $( ROWS = 3; COLS = 5 $)
GLOBAL $( M:200 $)

LET CELL(R, C) = M + R * COLS + C

LET PUT(R, C, X) BE
$( LET P = CELL(C, R)
   STORE(P, X)
$)

AND STORE(P, X) BE !P := X

LET FILL() BE
   FOR R = 0 TO ROWS-1 DO
      FOR C = 0 TO COLS-1 DO
         PUT(R, C, R * C)

LET START() BE
$( LET V = VEC ROWS*COLS-1
   M := V
   FILL()
   FOR R = 0 TO ROWS-1 DO
   $( FOR C = 0 TO COLS-1 DO WRITED(!CELL(R, C), 4)
      NEWLINE()
   $)
$)
