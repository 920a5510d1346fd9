GET "LIBHDR"

// memmove
LET MOVE(TO.P, FROM, N) BE
$( IF FROM < TO.P DO
   $( FOR I = N - 1 TO 0 BY -1 DO TO.P!I := FROM!I
      RETURN
   $)
   FOR I = 0 TO N - 1 DO TO.P!I := FROM!I
$)

LET PRINT(V, N) BE
$( FOR I = 0 TO N - 1 DO WRITED(V!I, 4)
   NEWLINE()
$)

LET START() BE
$( LET A = VEC 20
   LET B = VEC 9
   FOR I = 0 TO 20 DO A!I := I
   // overlapping, inside A
   MOVE(A + 5, A, 10)
   PRINT(A, 15)
   MOVE(B, A, 10)
   PRINT(B, 10)
$)
