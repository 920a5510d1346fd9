/// population counts by table, shifts as in C
GET "LIBHDR2"
MANIFEST $( BITS = 4; SIZE = 16 $)

LET MAKETABLE(T) BE
$( LET I = 0
   UNTIL I = 1 << BITS DO
   $( LET N, X = 0, I
      WHILE X ~= 0 DO
      $( N := N + (X & 1)
         X := X >> 1
      $)
      T!I := N
      I := I + 1
   $)
$)

LET POPCOUNT(T, X) = VALOF
$( LET N = 0
   FOR SHIFT = 0 TO 28 BY BITS DO
      N := N + T!((X >> SHIFT) & #XF)
   RESULTIS N
$)

LET START() BE
$( LET T = VEC SIZE - 1
   MAKETABLE(T)
   WRITEF("%N*N", POPCOUNT(T, 0))
   WRITEF("%N*N", POPCOUNT(T, 255))
   WRITEF("%N*N", POPCOUNT(T, -1))
$)
