GET "LIBHDR"

LET DOUBLE(X) = X + X
LET SCALE(X, N) = X * N

// apply F(word, N) to four words, from the last to the first
LET MAP(F, V, N) BE
$( LET I = 4
   $( I := I - 1
      V!I := F(V!I, N)
   $) REPEATUNTIL I = 0
$)

LET SHOW(V) BE
$( FOR I = 0 TO 3 DO WRITED(V!I, 5)
   NEWLINE()
$)

LET START() BE
$( LET V = VEC 3
   FOR I = 0 TO 3 DO V!I := I + 1
   MAP(SCALE, V, 4)
   SHOW(V)
   MAP(DOUBLE, V)
   SHOW(V)
$)
