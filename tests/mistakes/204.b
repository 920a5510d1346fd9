// INSERTION SORT, from a FORTRAN listing
GET "LIBHDR"
MANIFEST $( N = 8 $)

LET INSORT(A) BE
$( FOR I = 2 TO N DO
   $( LET X, J = A!I, I
      WHILE J > 1 DO
      $( IF A!(J-1) <= X DO BREAK
         A!J := A(J-1)
         J := J - 1
      $)
      A!J := X
   $)
$)

LET START() BE
$( LET A = VEC N
   A!1, A!2, A!3, A!4 := 3, 8, 11, 2
   A!5, A!6, A!7, A!8 := 9, -4, 77, 0
   INSORT(A)
   FOR I = 1 TO N DO WRITED(A!I, 6)
   NEWLINE()
$)
