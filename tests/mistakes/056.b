GET "LIBHDR2"

LET SELECTION.SORT(V, N) BE
   FOR I = 0 TO N - 2 DO
   $( LET K = I
      FOR J = I + 1 TO N - 1 DO
         IF V!J < V!K DO K := J
      UNLESS K = I DO
      $( LET T = V!I
         V!I := V!K
         V!K := T
      $)
   $)

LET START() BE
$( LET V = VEC 4
   V!0 := "Oxford"
   V!1 := "Cambridge"
   V!2 := "Bath"
   V!3 := "Durham"
   V!4 := "Essex"
   SELECTION.SORT(V, 5)
   FOR I = 0 TO 4 DO WRITEF("%S*N", V!I)
$)
