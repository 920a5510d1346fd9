GET "LIBHDR"

LET FIND(V, N, X) = VALOF
$( FOR I = 0 TO N - 1 DO
      IF V!I = X RESULTIS I
$)

LET START() BE
$( LET A = TABLE 4, 8, 15, 16, 23
   WRITES("15 at ")
   WRITEN(FIND(A, 5, 15))
   NEWLINE()
   IF FIND(A, 5, 9) < 0 DO
      WRITES("9 is missing*N")
   WRITES("end*N")
$)
