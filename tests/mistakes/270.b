// a telephone book
GET "LIBHDR2"
STATIC $( tab = 0; n = 0 $)

LET same(a, b) = VALOF
$(  FOR i = 0 TO a%0 UNLESS a%i = b%i RESULTIS FALSE
    RESULTIS TRUE
$)

LET enter(name, number) BE
$(  tab!(2*n) := name
    tab!(2*n + 1) := number
    n := n + 1
$)

LET find(name) = VALOF
$(  FOR i = 0 TO n - 1 DO
        IF same(tab!(2*i), name) RESULTIS tab!(2*i + 1)
$)

LET ask(name) BE
$(  LET number = find(name)
    WRITEF("%S: ", name)
    TEST number = 0
    THEN WRITES("not listed*N")
    ELSE WRITEF("%N*N", number)
$)

LET START() BE
$(  LET v = VEC 39
    tab := v
    enter("police", 110)
    enter("fire", 112)
    enter("time", 123)
    ask("fire")
    ask("time")
    ask("taxi")
$)
