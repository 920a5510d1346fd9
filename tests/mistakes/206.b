// Phone book as linked list
GET "LIBHDR2"
MANIFEST $( KEY = 0; PHONE = 1; NEXT = 2 $)
GLOBAL $( BOOK:100; FREE:101 $)

LET ADD(K, P) BE
$( LET E = FREE
   FREE := FREE + 3
   KEY!E, PHONE!E, NEXT!E := K, P, BOOK
   BOOK := E
$)

LET FIND(K) = VALOF
$( LET E = BOOK
   UNTIL KEY!E = K DO E := NEXT!E
   RESULTIS E
$)

LET ASK(K) BE
$( LET E = FIND(K)
   TEST E = 0 THEN WRITEF("%N is not in the book*N", K)
   OR WRITEF("%N has number %N*N", K, PHONE!E)
$)

LET START() BE
$( LET SPACE = VEC 29
   BOOK, FREE := 0, SPACE
   ADD(7, 3344); ADD(12, 3359); ADD(40, 2020)
   ASK(12)
   ASK(7)
   ASK(13)
$)
