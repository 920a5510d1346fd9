// Sorts readings into four classes.
GET "LIBHDR2"

LET class(x) = (x >= 10) + (x >= 20) + (x >= 30)

LET title(k) = VALOF SWITCHON k INTO
$(  CASE 0:  RESULTIS "cold"
    CASE 1:  RESULTIS "mild"
    CASE 2:  RESULTIS "warm"
    DEFAULT: RESULTIS "hot"
$)

LET START() BE
$(  LET reading = TABLE 7, 22, 15, 31, 9, 28, 30
    LET count = VEC 3
    FOR k = 0 TO 3 DO count!k := 0
    FOR i = 0 TO 6 DO
    $(  LET k = class(reading!i)
        count!k := count!k + 1
    $)
    FOR k = 0 TO 3 DO WRITEF("%S: %N*N", title(k), count!k)
$)
