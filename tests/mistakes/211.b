// stack with the count in word 0
GET "LIBHDR"

LET PUSH(V, X) BE
$( V!0 := V!0 + 1
   V!(V!0) := X
$)

LET POP(V) = VALOF
$( LET X = V!(V!0)
   V!0 := V!0 - 1
   RESULTIS X
$)

LET DUMP(V) BE
$( WRITES("stack:")
   FOR I = 1 TO V DO
   $( WRCH(' ')
      WRITEN(V!I)
   $)
   NEWLINE()
$)

LET START() BE
$( LET S = VEC 20
   S!0 := 0
   PUSH(S, 3)
   PUSH(S, 4)
   PUSH(S, 5)
   DUMP(S)
   PUSH(S, POP(S) * POP(S))
   DUMP(S)
$)
