GET "LIBHDR2"

LET ISPRIME(P) = VALOF
$( LET D = 2
   WHILE D * D <= P DO
   $( IF P REM D = 0 RESULTIS FALSE
      D := D + 1
   $)
   RESULTIS P > 1
$)

LET START() BE
$( LET N, F = 1001, ?
   FOR K = N TO 2 DO
      IF N REM K = 0 & ISPRIME(K) DO
      $( F := K
         BREAK
      $)
   WRITEF("%N has the largest prime factor %N*N", N, F)
$)
