GET "LIBHDR"

LET SUMUP(V, N) = VALOF
$( LET P, S = V, 0
   FOR I = 1 TO N DO
   $( P := P + 1; S := S + !P
   $)
   RESULTIS S
$)

LET START() BE
$( LET V = VEC 7
   FOR I = 0 TO 7 DO V!I := 1 << I
   WRITES("sum of 8 powers: ")
   WRITEN(SUMUP(V, 8))
   NEWLINE()
$)
