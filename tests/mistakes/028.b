GET "LIBHDR2"
MANIFEST $( NAME = 0; AGE = 1; SIZE = 1 $)
STATIC $( YEAR = 1980 $)

LET MAKE(P, N, BORN) BE
$( P!NAME := N
   P!AGE := YEAR - BORN
$)

LET SHOW(PERSON) BE
   WRITEF("%S is %S years old*N", PERSON!NAME, PERSON!AGE)

LET START() BE
$( LET A = VEC SIZE
   LET B = VEC SIZE
   MAKE(A, "Christopher", 1916)
   MAKE(B, "Maurice", 1913)
   WRITEF("In the year %N:*N", YEAR)
   SHOW(A)
   SHOW(B)
$)
