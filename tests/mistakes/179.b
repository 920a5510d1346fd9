GET "LIBHDR"
MANIFEST $( W = 8; H = 6 $)

LET NEIGHBOURS(G, R, C) = VALOF
$( LET N = 0
   FOR I = R-1 TO R+1 DO
      FOR J = C-1 TO C+1 DO
         UNLESS I = R & J = C DO
            N := N + G!(I*W + J)
   RESULTIS N
$)

LET GENERATION(G, NEW) BE
   FOR R = 0 TO H-1 DO
      FOR C = 1 TO W-2 DO
      $( LET N = NEIGHBOURS(G, R, C)
         NEW!(R*W + C) := N = 3 -> 1, N = 2 -> G!(R*W + C), 0
      $)

LET SHOW(G) BE
   FOR R = 1 TO H-2 DO
   $( FOR C = 1 TO W-2 DO WRCH(G!(R*W + C) = 1 -> '**', '.')
      NEWLINE()
   $)

LET START() BE
$( LET A = VEC W*H-1
   LET B = VEC W*H-1
   FOR I = 0 TO W*H-1 DO A!I, B!I := 0, 0
   FOR C = 2 TO 4 DO A!(2*W + C) := 1
   SHOW(A)
   GENERATION(A, B)
   NEWLINE()
   SHOW(B)
$)
