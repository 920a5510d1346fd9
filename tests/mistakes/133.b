GET "LIBHDR"
MANIFEST $( MAX = 100 $)

LET MARK(P, STEP) BE
$( LET K = STEP * STEP
   WHILE K <= MAX DO
   $( P!K := FALSE
      K := K + STEP
   $)
$)

LET START() BE
$( LET P = VEC MAX
   LET COUNT = 0
   FOR I = 2 TO MAX DO P!I := TRUE
   FOR I = 2 TO 10 DO IF P!I DO MARK(P, I)
   FOR I = 1 TO MAX DO
      IF P!I DO
      $( WRITED(I, 4)
         COUNT := COUNT + 1
         IF COUNT REM 10 = 0 DO NEWLINE()
      $)
   NEWLINE()
   WRITES("PRIMES: "); WRITEN(COUNT); NEWLINE()
$)
