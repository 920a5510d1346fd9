GET "LIBHDR"

LET ASCENDING(A, B) = A > B
LET DESCENDING(A, B) = A < B

LET SORT(V, N, COMP) BE
   FOR I = 2 TO N DO
   $( LET X, J = V!I, I-1
      WHILE J >= 1 & COMP(V!J, X) DO
      $( V!(J+1) := V!J
         J := J - 1
      $)
      V!(J+1) := X
   $)

LET PRINT(V, N) BE
$( FOR I = 1 TO N DO WRITED(V!I, 4)
   NEWLINE()
$)

LET START() BE
$( LET V = VEC 6
   FOR I = 1 TO 6 DO V!I := (I * 5) REM 7
   SORT(V, 6, ASCENDING)
   PRINT(V, 6)
   SORT(V, 6, TRUE)
   PRINT(V, 6)
$)
