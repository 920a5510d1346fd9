// procedures as values
GET "LIBHDR2"

LET map(f, v, n) BE
    FOR i = 0 TO n - 1 DO v!i := f(v!i)

LET fold(f, v, n, x) = VALOF
$(  FOR i = 0 TO n - 1 DO x := f(x, v!i)
    RESULTIS x
$)

LET square(x) = x * x
LET half(x) = x / 2
LET plus(x, y) = x + y
LET max(x, y) = x > y -> x, y

LET START() BE
$(  LET v = VEC 9
    FOR i = 0 TO 9 DO v!i := i + 1
    map(square, v, 10)
    WRITEF("sum of squares %N*N", fold(plus, v, 10, 0))
    map(v, half, 10)
    WRITEF("largest half %N*N", fold(max, v, 10, 0))
    WRITEF("sum of halves %N*N", fold(plus, v, 10, 0))
$)
