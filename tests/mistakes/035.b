GET "LIBHDR"
GLOBAL $( STACK:100; SP:101 $)

LET PUSH(X) BE
$( STACK!SP := X
   SP := SP + 1
$)

LET POP() = VALOF
$( SP := SP - 1
   RESULTIS STACK!SP
$)

LET START() BE
$( LET V = VEC 50
   LET CH, T = ?, ?
   STACK, SP := V, 0
   CH := RDCH()
   UNTIL CH = ENDSTREAMCH DO
   $( SWITCHON CH INTO
      $( CASE '+': PUSH(POP() + POP()); ENDCASE
         CASE '**': PUSH(POP() * POP()); ENDCASE
         CASE '-': T := POP()
                   PUSH(POP() - T)
                   ENDCASE
         CASE '.': WRITEN(POP()); NEWLINE(); ENDCASE
         CASE '0': CASE '1': CASE '2': CASE '3': CASE '4':
         CASE '5': CASE '6': CASE '7': CASE '8': CASE '9':
                   PUSH(CH - '0')
         DEFAULT:
      $)
      CH := RDCH()
   $)
$)
