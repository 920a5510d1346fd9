GET "LIBHDR2"

LET SEARCH(V, N, X) = VALOF
$( LET LO, HI = 0, N-1
   WHILE LO < HI DO
   $( LET MID = (LO + HI) / 2
      TEST V!MID < X
      THEN LO := MID
      OR HI := MID
   $)
   RESULTIS V!LO = X -> LO, -1
$)

LET START() BE
$( LET PRIMES = TABLE 2, 3, 5, 7, 11, 13, 17, 19, 23, 29
   FOR X = 1 TO 30 DO
   $( LET I = SEARCH(PRIMES, 10, X)
      IF I >= 0 DO WRITEF("%N IS PRIME NUMBER %N*N", X, I+1)
   $)
$)
