GET "LIBHDR"
MANIFEST $( ROWS = 3; COLS = 5 $)

LET SETUP(M, DATA) BE
   FOR I = 0 TO ROWS - 1 DO
   $( M!I := DATA + I * COLS
      FOR J = 0 TO COLS - 1 DO
         M!I!J := (I + 1) * (J + 1)
   $)

LET PRINT(M) BE
   FOR I = 0 TO ROWS - 1 DO
   $( FOR J = 0 TO COLS - 1 DO
         WRITED(M!J!I, 4)
      NEWLINE()
   $)

LET START() BE
$( LET M = VEC ROWS - 1
   LET DATA = VEC ROWS * COLS - 1
   SETUP(M, DATA)
   WRITES("Multiplication table*N")
   PRINT(M)
$)
