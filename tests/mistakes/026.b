GET "LIBHDR"
MANIFEST $( LIT = 1; PLUS = 2; NEG = 3; DROP = 4; OUT = 5; HALT = 6 $)

LET RUN(CODE) BE
$( LET STACK = VEC 16
   LET SP, PC, A = STACK, 0, ?
   $( LET OP = CODE!PC
      PC := PC + 1
      SWITCHON OP INTO
      $( CASE LIT: SP := SP + 1
                   !SP := CODE!PC
                   PC := PC + 1
                   ENDCASE
         CASE PLUS: SP := SP - 1
                   !SP := !SP + SP!1
                   ENDCASE
         CASE NEG: !SP := -!SP
         CASE DROP: SP := SP - 1
                   ENDCASE
         CASE OUT: A := !SP
                   WRITEN(A)
                   NEWLINE()
                   SP := SP - 1
                   ENDCASE
         CASE HALT: RETURN
         DEFAULT:  WRITES("bad code*N")
                   RETURN
      $)
   $) REPEAT
$)

LET START() BE
$( RUN(TABLE LIT, 3, LIT, 4, PLUS, OUT, HALT)
   RUN(TABLE LIT, 12, NEG, OUT, HALT)
$)
