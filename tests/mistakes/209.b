// counts words with a hash table of counters
GET "LIBHDR2"
MANIFEST $( SIZE = 97 $)

LET HASH(S) = VALOF
$( LET H = 5381
   FOR I = 1 TO S%0 DO
      H := H * 33 NEQV S%I
   RESULTIS H REM SIZE
$)

LET COUNT(T, S) BE
$( LET H = HASH(S)
   T!H := T!H + 1
$)

LET START() BE
$( LET T = VEC SIZE - 1
   FOR I = 0 TO SIZE - 1 DO T!I := 0
   COUNT(T, "to"); COUNT(T, "be"); COUNT(T, "or")
   COUNT(T, "not"); COUNT(T, "to"); COUNT(T, "be")
   COUNT(T, "question"); COUNT(T, "whether"); COUNT(T, "nobler")
   COUNT(T, "slings"); COUNT(T, "arrows"); COUNT(T, "outrageous")
   COUNT(T, "fortune"); COUNT(T, "opposing"); COUNT(T, "consummation")
   COUNT(T, "undiscovered"); COUNT(T, "traveller"); COUNT(T, "conscience")
   COUNT(T, "resolution"); COUNT(T, "enterprises"); COUNT(T, "Ophelia")
   FOR I = 0 TO SIZE - 1 DO
      IF T!I > 0 DO WRITEF("slot %N: %N*N", I, T!I)
$)
