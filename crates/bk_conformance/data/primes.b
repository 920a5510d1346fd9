// A vector and bytes in it: the primes below 100, by the sieve of Eratosthenes.
GET "LIBHDR"
MANIFEST $( LIMIT = 100 $)

LET START() BE
$( LET SIEVE = VEC LIMIT / 4
   FOR I = 0 TO LIMIT - 1 DO SIEVE%I := 1
   FOR I = 2 TO LIMIT - 1 DO
      IF SIEVE%I DO
      $( LET K = I * I
         WRITED(I, 3)
         UNTIL K >= LIMIT DO $( SIEVE%K := 0; K := K + I $)
      $)
   NEWLINE()
$)
