// Concatenate strings and keep the results in a string store
GET "LIBHDR2"
GLOBAL $( STORE:100; TOP:101 $)

LET CONCAT(A, B, R) BE
$( LET N = A%0
   FOR I = 1 TO N DO R%I := A%I
   FOR I = 1 TO B%0 DO R%(N + I) := B%I
   R%0 := N + B%0
$)

LET SAVE(S) = VALOF
$( LET P = STORE + TOP
   LET WORDS = S%0 / BYTESPERWORD + 1
   FOR I = 0 TO WORDS - 1 DO P!I := S!I
   TOP := TOP + WORDS
   RESULTIS P
$)

LET JOIN(A, B) = VALOF
$( LET R = VEC 63
   CONCAT(A, B, R)
   RESULTIS SAVE(R)
$)

LET START() BE
$( LET V = VEC 200
   LET FIRST, SECOND = ?, ?
   STORE, TOP := V, 0
   FIRST := JOIN("foot", "ball")
   SECOND := JOIN(FIRST, "ers")
   WRITEF("%S and %S take %N words*N", FIRST, SECOND, TOP)
$)
