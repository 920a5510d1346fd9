// Rule 90 on a ring of cells.
GET "LIBHDR"
MANIFEST $( WIDTH = 31; LINES = 10 $)

LET left(i) = (i - 1) REM WIDTH
LET right(i) = (i + 1) REM WIDTH

LET show(v) BE
$(  FOR i = 0 TO WIDTH - 1 DO WRCH(v!i = 1 -> '**', '.')
    NEWLINE()
$)

LET turn(v, w) BE
    FOR i = 0 TO WIDTH - 1 DO
        w!i := v!left(i) NEQV v!right(i)

LET START() BE
$(  LET a, b = VEC WIDTH - 1, VEC WIDTH - 1
    FOR i = 0 TO WIDTH - 1 DO a!i := 0
    a!(WIDTH / 2) := 1
    FOR n = 1 TO LINES DO
    $(  LET t = a
        show(a)
        turn(a, b)
        a := b
        b := t
    $)
$)
