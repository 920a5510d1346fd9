GET "LIBHDR"

// a string of the first N letters
LET MAKE(S, N) BE
$( S%0 := N
   FOR I = 1 TO N DO S%I := 'a' + I - 1
$)

LET COPY(S, T) BE
   FOR I = 0 TO S%0 / BYTESPERWORD DO
      T!I := S!I

LET START() BE
$( LET A = VEC 9
   LET B = VEC 9
   FOR N = 3 TO 15 BY 4 DO
   $( MAKE(A, N)
      COPY(A, B)
      WRITES(B); NEWLINE()
   $)
   MAKE(A, 17)
   COPY(A, B)
   WRITES(B); NEWLINE()
$)
