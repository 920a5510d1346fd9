GET "LIBHDR"
MANIFEST $( VAL = 0; NXT = 1 $)
STATIC $( HEAD = 0; TAIL = 0 $)

LET APPEND(C) BE
$( C!NXT := 0
   TEST HEAD = 0
   THEN HEAD := C
   ELSE TAIL!NXT := C
   TAIL := C
$)

LET SHOW() BE
$( LET P = HEAD
   UNTIL P = 0 DO
   $( WRITEN(P!VAL)
      WRCH('*S')
      P := P!NXT
   $)
   NEWLINE()
$)

LET START() BE
$( LET CELLS = VEC 9
   LET A, B, C = CELLS, CELLS + 2, CELLS + 4
   A!VAL, B!VAL, C!VAL := 1, 2, 3
   APPEND(A); APPEND(B)
   SHOW()
   APPEND(B)
   SHOW()
$)
