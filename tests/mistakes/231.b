// Ordered list: insertion and printing
GET "LIBHDR"
MANIFEST $( KEY = 0; NEXT = 1 $)

LET INSERT(LIST, NODE) = VALOF
$( LET P, Q, MORE = LIST, 0, ?
   LET K = NODE!KEY
   $( MORE := P ~= 0 & P!KEY < K
      IF MORE DO
      $( Q := P
         P := P!NEXT
      $)
   $) REPEATWHILE MORE
   NODE!NEXT := P
   IF Q = 0 DO RESULTIS NODE
   Q!NEXT := NODE
   RESULTIS LIST
$)

LET START() BE
$( LET STORE = VEC 19
   LET LIST = STORE
   STORE!KEY, STORE!NEXT := 50, 0
   FOR I = 1 TO 9 DO
   $( LET NODE = STORE + 2 * I
      NODE!KEY := I * I
      LIST := INSERT(LIST, NODE)
   $)
   UNTIL LIST = 0 DO
   $( WRITED(LIST!KEY, 4)
      LIST := LIST!NEXT
   $)
   NEWLINE()
$)
