GET "LIBHDR"

LET REVERSE(S, T) BE
$( LET N = S%0
   T%0 := N
   FOR I = 1 TO N DO T%I := S%(N + 1 - I)
$)

LET START() BE
$( LET T = VEC 63
   REVERSE("stressed", T)
   WRITES(T); WRCH('*N')
   WRITEN(T%0); WRCH(' '); WRCH(T%1 - 'a' + 'A'); NEWLINE()
$)
