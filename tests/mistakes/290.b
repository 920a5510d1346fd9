// How often does each sum of digits occur from 1 to 50?
GET "LIBHDR2"
MANIFEST $( MOST = 13 $)

LET START() BE
$(  LET sums = VEC MOST
    FOR i = 0 TO MOST DO sums!i := 0
    FOR n = 1 TO 50 DO
    $(  LET sum = 0
        UNTIL n = 0 DO
        $(  sum := sum + n REM 10
            n := n / 10
        $)
        sums!sum := sums!sum + 1
    $)
    FOR i = 1 TO MOST DO WRITEF("%I3: %N*N", i, sums!i)
$)
