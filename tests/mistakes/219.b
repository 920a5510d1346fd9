// Days between two dates in one year
GET "LIBHDR2"

LET MONTHLENGTH(M) = VALOF
$( LET T = TABLE 31, 28, 31, 30, 31, 30, 31, 31, 30, 31, 30, 31
   RESULTIS T!M
$)

LET DAYNUMBER(D, M) = VALOF
$( LET N = D
   UNTIL M = 1 DO
   $( M := M - 1
      N := N + MONTHLENGTH(M)
   $)
   RESULTIS N
$)

LET VALID(D, M) = 1 <= M <= 12 -> 1 <= D <= MONTHLENGTH(M), FALSE

LET BETWEEN(D1, M1, D2, M2) BE
$( UNLESS VALID(D1, M1) & VALID(D2, M2) DO
   $( WRITES("no such date*N"); RETURN $)
   WRITEF("%N days*N", DAYNUMBER(D2, M2) - DAYNUMBER(D1, M1))
$)

LET START() BE
$( BETWEEN(1, 1, 1, 5)
   BETWEEN(17, 13, 20, 15)
   BETWEEN(24, 3, 24, 12)
$)
