GET "LIBHDR"
MANIFEST $( N = 10 $)

LET SORT(V) BE
   FOR I = 0 TO N-1 DO
      FOR J = 0 TO N-1 DO
         IF V!J > V!(J+1) DO
         $( LET T = V!J
            V!J := V!(J+1)
            V!(J+1) := T
         $)

LET START() BE
$( LET V = VEC 9
   LET X = 17
   FOR I = 0 TO N-1 DO
   $( X := (X * 31 + 7) REM 101
      V!I := X
   $)
   SORT(V)
   FOR I = 0 TO N-1 DO WRITED(V!I, 5)
   NEWLINE()
$)
