GET "LIBHDR2"
MANIFEST $( N = 6 $)
GLOBAL $( PARENT:100 $)

// union and find
LET ROOT(X) = VALOF
$( WHILE PARENT!X ~= X DO X := PARENT!X
   RESULTIS X
$)

LET UNITE(A, B) BE
   PARENT!B := A

LET CLASSES() = VALOF
$( LET C = 0
   FOR I = 1 TO N IF ROOT(I) = I DO C := C + 1
   RESULTIS C
$)

LET START() BE
$( LET V = VEC N
   PARENT := V
   FOR I = 1 TO N DO PARENT!I := I
   WRITEF("%N classes*N", CLASSES())
   UNITE(1, 2)
   UNITE(2, 3)
   WRITEF("%N classes*N", CLASSES())
   UNITE(3, 1)
   UNITE(5, 6)
   WRITEF("%N classes*N", CLASSES())
$)
