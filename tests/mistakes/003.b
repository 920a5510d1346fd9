GET "LIBHDR2"
MANIFEST $( KEY = 0; VALUE = 1; LINK = 2 $)
STATIC $( LIST = 0 $)

LET FIND(K) = VALOF
$( LET P = LIST
   UNTIL P!KEY = K DO P := P!LINK
   RESULTIS P
$)

LET SHOW(K) BE
$( LET P = FIND(K)
   TEST P = 0
   THEN WRITEF("%N: not there*N", K)
   ELSE WRITEF("%N: %S*N", K, P!VALUE)
$)

LET START() BE
$( LET A, B, C = VEC 2, VEC 2, VEC 2
   A!KEY, A!VALUE, A!LINK := 10, "ten", 0
   B!KEY, B!VALUE, B!LINK := 20, "twenty", A
   C!KEY, C!VALUE, C!LINK := 30, "thirty", B
   LIST := C
   SHOW(20)
   SHOW(10)
   SHOW(15)
   SHOW(30)
$)
