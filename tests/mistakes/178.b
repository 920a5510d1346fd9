GET "LIBHDR2"
GLOBAL $( COLFREE:200; UP:201; DOWN:202; PLACE:203; COUNT:204 $)

LET TRY(I) BE
$( IF I = 8 DO
   $( COUNT := COUNT + 1
      RETURN
   $)
   FOR J = 0 TO 7 DO
   $( LET D = I - J
      IF COLFREE!J & UP!(I+J) & DOWN!D DO
      $( PLACE!I := J
         COLFREE!J, UP!(I+J), DOWN!D := FALSE, FALSE, FALSE
         TRY(I+1)
         COLFREE!J, UP!(I+J), DOWN!D := TRUE, TRUE, TRUE
      $)
   $)
$)

LET START() BE
$( LET A = VEC 7
   LET B = VEC 14
   LET C = VEC 14
   LET P = VEC 7
   COLFREE, UP, DOWN, PLACE, COUNT := A, B, C, P, 0
   FOR I = 0 TO 7 DO A!I := TRUE
   FOR I = 0 TO 14 DO B!I, C!I := TRUE, TRUE
   TRY(0)
   WRITEF("%N SOLUTIONS*N", COUNT)
$)
