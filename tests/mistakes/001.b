// Bubble sort of ten marks
GET "LIBHDR"
MANIFEST $( N = 10 $)

LET FILL(V, SEED) BE
   FOR I = 0 TO N - 1 DO
   $( SEED := (SEED * 37 + 11) REM 101
      V!I := SEED
   $)

LET SORT(V) BE
   FOR PASS = 1 TO N DO
      FOR J = 0 TO N - 1 DO
         IF V!J > V!(J + 1) DO
         $( LET T = V!J
            V!J := V!(J + 1)
            V!(J + 1) := T
         $)

LET SHOW(V) BE
$( FOR I = 0 TO N - 1 DO WRITED(V!I, 5)
   NEWLINE()
$)

LET START() BE
$( LET MARKS = VEC N - 1
   FILL(MARKS, 42)
   SHOW(MARKS)
   SORT(MARKS)
   SHOW(MARKS)
$)
