GET "LIBHDR"
MANIFEST $( R = 2; C = 3 $)

LET TRANSPOSE(M, T) BE
   FOR I = 0 TO R - 1 DO
      FOR J = 0 TO C - 1 DO
         T!J!I := M!I!J

LET SHOW(M, ROWS, COLS) BE
   FOR I = 0 TO ROWS - 1 DO
   $( FOR J = 0 TO COLS - 1 DO WRITED(M!I!J, 4)
      NEWLINE()
   $)

LET START() BE
$( LET M, T = VEC 2, VEC 2
   LET D1, D2 = VEC R * C - 1, VEC R * C - 1
   FOR I = 0 TO R - 1 DO
   $( M!I := D1 + I * C
      T!I := D2 + I * C
   $)
   FOR I = 0 TO R - 1 DO
      FOR J = 0 TO C - 1 DO M!I!J := 10 * I + J
   SHOW(M, R, C)
   TRANSPOSE(M, T)
   SHOW(T, C, R)
$)
