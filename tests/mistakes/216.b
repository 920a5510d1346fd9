// linked list of squares
GET "LIBHDR"

LET PRINTLIST(P) BE
   UNTIL P = 0 DO
   $( WRITEN(P!1)
      NEWLINE()
      P := P!0
   $)

LET LENGTH(P) = P = 0 -> 0, 1 + LENGTH(P!0)

LET START() BE
$( LET TOP = 0
   FOR I = 1 TO 10 DO
   $( LET NODE = VEC 1
      NODE!0 := TOP
      NODE!1 := I * I
      TOP := NODE
   $)
   PRINTLIST(TOP)
   WRITEN(LENGTH(TOP))
   NEWLINE()
$)
