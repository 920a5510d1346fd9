// A small interpreter: programs of a machine with a stack, each a table of its words.
GET "LIBHDR"
MANIFEST $( PUSH = 1; ADD = 2; SUBTRACT = 3; MULTIPLY = 4; COPY = 5; SWAP = 6; PRINT = 7; JUMP = 8; JUMPZERO = 9; HALT = 10 $)

LET RUN(CODE) BE
$( LET STACK = VEC 20
   LET PC, SP = 0, STACK
   $( LET OPERATION = CODE!PC
      PC := PC + 1
      SWITCHON OPERATION INTO
      $( CASE PUSH:     SP := SP + 1; !SP := CODE!PC; PC := PC + 1; ENDCASE
         CASE ADD:      SP := SP - 1; !SP := !SP + SP!1; ENDCASE
         CASE SUBTRACT: SP := SP - 1; !SP := !SP - SP!1; ENDCASE
         CASE MULTIPLY: SP := SP - 1; !SP := !SP * SP!1; ENDCASE
         CASE COPY:     SP := SP + 1; !SP := SP!(-1); ENDCASE
         CASE SWAP:     $( LET TOP = !SP
                           !SP := SP!(-1)
                           SP!(-1) := TOP
                        $); ENDCASE
         CASE PRINT:    WRITEN(!SP); WRCH(' '); SP := SP - 1; ENDCASE
         CASE JUMP:     PC := CODE!PC; ENDCASE
         CASE JUMPZERO: TEST !SP = 0 THEN PC := CODE!PC OR PC := PC + 1
                        SP := SP - 1; ENDCASE
         CASE HALT:     NEWLINE(); RETURN
         DEFAULT:       WRITES("bad operation*N"); STOP(1)
      $)
   $) REPEAT
$)

LET START() BE
$( // (2 + 3) * 4 - 1
   RUN(TABLE PUSH, 2, PUSH, 3, ADD, PUSH, 4, MULTIPLY, PUSH, 1, SUBTRACT, PRINT, HALT)
   // from 5 down to 1
   RUN(TABLE PUSH, 5, COPY, PRINT, PUSH, 1, SUBTRACT, COPY, JUMPZERO, 12, JUMP, 2, HALT, HALT)
   // the powers of 2 below 1000: 1 on the stack, printed and doubled until 1024 - it is 0
   RUN(TABLE PUSH, 1, COPY, PRINT, PUSH, 2, MULTIPLY, COPY, PUSH, 1024, SUBTRACT, JUMPZERO, 15, JUMP, 2, HALT)
$)
