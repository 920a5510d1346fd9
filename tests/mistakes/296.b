// Reverse Polish calculator for numbers of one digit.
GET "LIBHDR"
STATIC $( STACK = 0; SP = 0 $)

LET push(x) BE
$(  stack!sp := x
    sp := sp + 1
$)

LET pop() = VALOF
$(  sp := sp - 1
    RESULTIS stack!sp
$)

LET divide() BE
$(  IF pop() = 0 DO $( WRITES("division by zero*N"); FINISH $)
    $(  LET b = pop()
        LET a = pop()
        push(a / b)
    $)
$)

LET START() BE
$(  LET v, c = VEC 20, RDCH()
    stack := v
    UNTIL c = '=' | c = ENDSTREAMCH DO
    $(  SWITCHON c INTO
        $(  CASE '+':  push(pop() + pop()); ENDCASE
            CASE '**': push(pop() * pop()); ENDCASE
            CASE '/':  divide();            ENDCASE
            CASE ' ': CASE '*N':            ENDCASE
            DEFAULT:   push(c - '0')
        $)
        c := RDCH()
    $)
    WRITEN(pop()); NEWLINE()
$)
