// sum of the positive items of a list
GET "LIBHDR2"
MANIFEST $( VAL = 0; NEXT = 1 $)
STATIC $( free = 0 $)

LET cons(v, l) = VALOF
$(  LET c = free
    free := free + 2
    VAL!c := v
    NEXT!c := l
    RESULTIS c
$)

LET sumpos(l) = VALOF
$(  LET s = 0
    UNTIL l = 0 DO
    $(  IF VAL!l < 0 LOOP
        s := s + VAL!l
        l := NEXT!l
    $)
    RESULTIS s
$)

LET START() BE
$(  LET space, list = VEC 99, 0
    free := space
    FOR i = 1 TO 20 DO list := cons(i * 7 REM 11 - 4, list)
    WRITEF("sum %N*N", sumpos(list))
$)
