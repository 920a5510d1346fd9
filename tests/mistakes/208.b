// guess a number: the computer asks a table of primes
GET "LIBHDR2"

LET SEARCH(V, N, KEY) = VALOF
$( LET LOW, HIGH = 0, N - 1
   WHILE LOW < HIGH DO
   $( LET MID = (LOW + HIGH) / 2
      TEST V!MID < KEY
      THEN LOW := MID
      ELSE HIGH := MID
   $)
   RESULTIS V!LOW = KEY -> LOW, -1
$)

LET TRY(V, N, KEY) BE
$( LET P = SEARCH(V, N, KEY)
   TEST P < 0 THEN WRITEF("%N is no prime of the table*N", KEY)
   ELSE WRITEF("%N is prime number %N*N", KEY, P + 1)
$)

LET START() BE
$( LET PRIMES = TABLE 2, 3, 5, 7, 11, 13, 17, 19, 23, 29
   TRY(PRIMES, 10, 2)
   TRY(PRIMES, 10, 13)
   TRY(PRIMES, 10, 24)
$)
