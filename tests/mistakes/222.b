// Sieve of Eratosthenes
GET "LIBHDR"
GLOBAL $( LIMIT:150; FLAGS:151 $)

LET CROSSOUT(P) BE
$( LET K = P * P
   WHILE K <= LIMIT DO
   $( FLAGS!K := FALSE
      K := K + P
   $)
$)

LET START() BE
$( LET LIMIT = 100
   LET V = VEC 100
   LET COLUMN = 0
   FLAGS := V
   FOR I = 2 TO LIMIT DO FLAGS!I := TRUE
   FOR I = 2 TO LIMIT DO
      IF FLAGS!I DO
      $( WRITED(I, 6)
         COLUMN := COLUMN + 1
         IF COLUMN REM 10 = 0 DO NEWLINE()
         IF I * I <= LIMIT DO CROSSOUT(I)
      $)
   NEWLINE()
$)
