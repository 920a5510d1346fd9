// open addressing
GET "LIBHDR2"
MANIFEST $( SIZE = 7; EMPTY = -1 $)
STATIC $( PROBES = 0 $)

LET HASH(K) = K REM SIZE

LET INSERT(T, K) BE
$( LET H = HASH(K)
   UNTIL T!H = EMPTY | T!H = K DO
   $( H := (H + 1) REM SIZE
      PROBES := PROBES + 1
   $)
   T!H := K
$)

LET MEMBER(T, K) = VALOF
$( LET H = HASH(K)
   FOR I = 1 TO SIZE DO
   $( IF T!H = K RESULTIS TRUE
      IF T!H = EMPTY RESULTIS FALSE
      H := (H + 1) REM SIZE
   $)
   RESULTIS FALSE
$)

LET START() BE
$( LET T, KEYS = VEC SIZE, TABLE 31, 4, 15, 92, 65, 35, 89, 79
   FOR I = 0 TO SIZE - 1 DO T!I := EMPTY
   FOR I = 0 TO 7 DO INSERT(T, KEYS!I)
   FOR K = 1 TO 100 DO
      IF MEMBER(T, K) DO WRITEF("%N ", K)
   WRITEF("*N%N probes*N", PROBES)
$)
