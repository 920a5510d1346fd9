GET "LIBHDR"
MANIFEST $( N = 4 $)

LET IDENTITY(A) BE
$( FOR I = 0 TO N - 1 DO
      FOR J = 0 TO N DO
         A!I!J := 0
   FOR I = 0 TO N - 1 DO A!I!I := 1
$)

LET TRACE(A) = VALOF
$( LET S = 0
   FOR I = 0 TO N - 1 DO S := S + A!I!I
   RESULTIS S
$)

LET START() BE
$( LET A, DATA = VEC N - 1, VEC N * N - 1
   FOR I = 0 TO N - 1 DO A!I := DATA + N * I
   IDENTITY(A)
   WRITES("trace ")
   WRITEN(TRACE(A))
   NEWLINE()
$)
