// 2 to the power 200, in groups of four digits
GET "LIBHDR2"
MANIFEST $( BASE = 10000; MAX = 30 $)
STATIC $( len = 0 $)

LET times(x, k) BE
$(  LET carry = 0
    FOR i = 0 TO len - 1 DO
    $(  LET p = x!i * k + carry
        x!i := p REM BASE
        carry := p / BASE
    $)
    UNLESS carry = 0 DO
    $(  len := len + 1
        x!len := carry
    $)
$)

LET print(x) BE
$(  WRITEN(x!(len - 1))
    FOR i = len - 2 TO 0 BY -1 DO
    $(  LET p = BASE / 10
        UNTIL p = 0 DO
        $(  WRITEN(x!i / p REM 10)
            p := p / 10
        $)
    $)
    NEWLINE()
$)

LET START() BE
$(  LET x = VEC MAX
    x!0 := 1
    len := 1
    FOR i = 1 TO 200 DO times(x, 2)
    WRITES("2 to the power 200 is ")
    print(x)
$)
