// Bubble sort, as I know it from Python
GET "LIBHDR"

LET FILL(V, N) BE
$( LET SEED = 12345
   FOR I = 0 TO N - 1 DO
   $( SEED := (SEED * 1103 + 127) REM 9973
      V!I := SEED REM 100
   $)
$)

LET SWAP(V, I, J) BE V!I, V!J := V!J, V!I

LET SORT(V, N) BE
$( LET SWAPPED = TRUE
   WHILE SWAPPED DO
   $( SWAPPED := FALSE
      FOR J = 0 TO N - 1 DO
         IF V!J > V!(J+1) DO
         $( SWAP(V, J, J+1)
            SWAPPED := TRUE
         $)
   $)
$)

LET SHOW(V, N) BE
$( FOR I = 0 TO N - 1 DO WRITED(V!I, 4)
   NEWLINE()
$)

LET START() BE
$( LET A = VEC 9
   FILL(A, 10)
   SHOW(A, 10)
   SORT(A, 10)
   SHOW(A, 10)
$)
