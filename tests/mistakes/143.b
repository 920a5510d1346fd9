GET "LIBHDR2"
GLOBAL $( SP:200; STACK:201; CH:202; DEPTH:201 $)

LET PUSH(X) BE
$( SP := SP + 1
   STACK!SP := X
$)

LET POP() = VALOF
$( SP := SP - 1
   RESULTIS STACK!(SP+1)
$)

LET START() BE
$( LET V = VEC 50
   STACK := V
   SP := 0
   DEPTH := 0
   CH := RDCH()
   UNTIL CH = ENDSTREAMCH DO
   $( IF CH = '(' DO
      $( PUSH(CH)
         DEPTH := DEPTH + 1
      $)
      IF CH = ')' DO
      $( POP()
         DEPTH := DEPTH - 1
      $)
      CH := RDCH()
   $)
   WRITEF("DEPTH AT END %N*N", DEPTH)
$)
