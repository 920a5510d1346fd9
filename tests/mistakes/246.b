// A MACHINE WITH FIVE ORDERS
GET "LIBHDR2"
MANIFEST $( LIT = 1; ADD = 2; MUL = 3; PRINT = 4; HALT = 5 $)

LET RUN(CODE) BE
$(  LET STACK = VEC 20
    LET PC, SP = 0, 0
    $(  LET OP = CODE!PC
        PC := PC + 1
        SWITCHON OP INTO
        $(  CASE LIT:
                SP := SP + 1
                STACK!SP := CODE!PC
                PC := PC + 1
                ENDCASE
            CASE ADD:
                SP := SP - 1
                STACK!SP := STACK!SP + STACK!(SP + 1)
            CASE MUL:
                SP := SP - 1
                STACK!SP := STACK!SP * STACK!(SP + 1)
                ENDCASE
            CASE PRINT:
                WRITEF("%N*N", STACK!SP)
                SP := SP - 1
                ENDCASE
            CASE HALT:
                RETURN
            DEFAULT:
                WRITEF("BAD ORDER %N AT %N*N", OP, PC - 1)
                RETURN
        $)
    $) REPEAT
$)

LET START() BE
    RUN(TABLE LIT, 6, LIT, 7, MUL, PRINT,
              LIT, 2, LIT, 3, ADD, LIT, 4, MUL, PRINT, HALT)
