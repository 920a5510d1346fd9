// reverse polish desk calculator, ended by =
GET "LIBHDR2"
GLOBAL $( sp:200; stack:201; push:202; pop:203; apply:204 $)

LET push(x) BE
$(  sp := sp + 1
    stack!sp := x
$)

LET pop() = VALOF
$(  LET x = stack!sp
    sp := sp - 1
    RESULTIS x
$)

LET apply(op) BE
$(  LET a, b = ?, ?
    IF op = ' ' | op = '*N' RETURN
    a := pop()
    b := pop()
    SWITCHON op INTO
    $(  CASE '+': push(b + a); ENDCASE
        CASE '-': push(b - a); ENDCASE
        CASE '**': push(b * a); ENDCASE
        CASE '/': push(a / b); ENDCASE
        DEFAULT: WRITEF("what is %C?*N", op)
    $)
$)

LET START() BE
$(  LET v, c = VEC 50, RDCH()
    stack, sp := v, 0
    UNTIL c = ENDSTREAMCH | c = '=' DO
        TEST '0' <= c <= '9'
        THEN
        $(  LET n = 0
            WHILE '0' <= c <= '9' DO
            $(  n := 10 * n + c - '0'
                c := RDCH()
            $)
            push(n)
        $)
        ELSE
        $(  apply(c)
            c := RDCH()
        $)
    WRITEF("%N*N", pop())
$)
