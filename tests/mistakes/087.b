GET "LIBHDR"
GLOBAL $( V:100; SIZE:101 $)

LET UP(X) BE
$( LET I = SIZE + 1
   SIZE := I
   V!I := X
   WHILE V!I < V!(I / 2) DO
   $( LET P, T = I / 2, V!I
      V!I := V!P
      V!P := T
      I := P
   $)
$)

LET START() BE
$( LET HEAP = VEC 31
   LET KEYS = TABLE 14, 20, 17, 31, 9, 12
   V, SIZE := HEAP, 1
   V!1 := 10
   FOR I = 0 TO 5 DO
   $( UP(KEYS!I)
      WRITES("smallest is ")
      WRITEN(V!1)
      NEWLINE()
   $)
$)
