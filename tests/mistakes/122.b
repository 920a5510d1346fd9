GET "LIBHDR2"
MANIFEST $( NAME = 0; AGE = 1; NEXT = 2 $)

LET PERSON(P, N, A, Q) = VALOF
$( P!NAME, P!AGE, P!NEXT := N, A, Q
   RESULTIS P
$)

LET ELDER(LIST) = VALOF
$( LET OLDEST, WHO = LIST, LIST
   LET P = LIST!NEXT
   UNTIL P = 0 DO
   $( TEST P!AGE > OLDEST
      THEN OLDEST, WHO := P!AGE, P
      ELSE WRITEF("not %S*N", P!NAME)
      P := P!NEXT
   $)
   RESULTIS WHO
$)

LET START() BE
$( LET A, B, C = VEC 2, VEC 2, VEC 2
   LET L = PERSON(A, "Ann", 31, PERSON(B, "Bob", 64, PERSON(C, "Cy", 5, 0)))
   WRITEF("%S is the eldest*N", ELDER(L)!NAME)
$)
