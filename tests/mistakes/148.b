GET "LIBHDR"

LET CONS(P, X, NEXT) = VALOF
$( P!0 := X
   P!1 := NEXT
   RESULTIS P
$)

LET SUMLIST(P) = VALOF
$( LET SUM = 0
   UNTIL P = 0 DO
   $( SUM := SUM + !P
      P := !P+1
   $)
   RESULTIS SUM
$)

LET START() BE
$( LET A = VEC 1
   LET B = VEC 1
   LET C = VEC 1
   LET L = CONS(A, 10, CONS(B, 20, CONS(C, 30, 0)))
   WRITES("SUM ")
   WRITEN(SUMLIST(L))
   NEWLINE()
$)
