// Sums of rows of a matrix kept in one vector
GET "LIBHDR2"
MANIFEST $( ROWS = 3; COLS = 4 $)

LET SUMROW(ROW, N) = VALOF
$( LET S = 0
   FOR I = 0 TO N - 1 DO S := S + ROW!I
   RESULTIS S
$)

LET PRINT(M) BE
   FOR R = 0 TO ROWS - 1 DO
   $( FOR C = 0 TO COLS - 1 DO WRITED(M!(R*COLS + C), 5)
      NEWLINE()
   $)

LET START() BE
$( LET M = VEC ROWS*COLS - 1
   FOR R = 0 TO ROWS - 1 DO
      FOR C = 0 TO COLS - 1 DO
         M!(R*COLS + C) := (R + 1) * (C + 2)
   PRINT(M)
   FOR R = 0 TO ROWS - 1 DO
      WRITEF("row %N: %N*N", R, SUMROW(M!(R*COLS), COLS))
$)
