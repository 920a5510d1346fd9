// Throws a die and counts.
GET "LIBHDR2"
GLOBAL $( seed = 17; rolls = 60 $)

LET random(n) = VALOF
$(  seed := (seed * 421 + 1663) REM 7875
    RESULTIS seed * n / 7875
$)

LET START() BE
$(  LET count = VEC 6
    FOR i = 1 TO 6 DO count!i := 0
    FOR i = 1 TO rolls DO
    $(  LET d = 1 + random(6)
        count!d := count!d + 1
    $)
    FOR i = 1 TO 6 DO WRITEF("%N: %N*N", i, count!i)
$)
