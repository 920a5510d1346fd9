GET "LIBHDR"
MANIFEST $( N = 3 $)

// whole numbers only
LET ELIMINATE(A) BE
   FOR K = 0 TO N - 2 DO
      FOR I = K + 1 TO N - 1 DO
      $( LET FACTOR = A!I!K / A!K!K
         FOR J = K TO N - 1 DO
            A!I!J := A!I!J - FACTOR * A!K!J
      $)

LET PRINT(A) BE
   FOR I = 0 TO N - 1 DO
   $( FOR J = 0 TO N - 1 DO WRITED(A!I!J, 5)
      NEWLINE()
   $)

LET START() BE
$( LET A = VEC N - 1
   A!0 := TABLE 1, 2, 3
   A!1 := TABLE 2, 4, 8
   A!2 := TABLE 3, 7, 5
   PRINT(A)
   ELIMINATE(A)
   NEWLINE()
   PRINT(A)
$)
