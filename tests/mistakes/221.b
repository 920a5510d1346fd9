// Matrix transpose, 2 rows by 5 columns
GET "LIBHDR"
MANIFEST $( ROWS = 2; COLS = 5; LAST = 9 $)

LET SHOW(M, R, C) BE
   FOR I = 0 TO R - 1 DO
   $( FOR J = 0 TO C - 1 DO WRITED(M!(I * C + J), 4)
      NEWLINE()
   $)

LET TRANSPOSE(M, T) BE
   FOR I = 0 TO COLS - 1 DO
      FOR J = 0 TO ROWS - 1 DO
         T!(I * COLS + J) := M!(J * COLS + I)

LET START() BE
$( LET A, B = VEC LAST, VEC LAST
   FOR K = 0 TO LAST DO A!K := K * 3
   SHOW(A, ROWS, COLS)
   NEWLINE()
   TRANSPOSE(A, B)
   SHOW(B, COLS, ROWS)
$)
