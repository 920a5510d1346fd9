// Area of a polygon by the shoelace formula.
GET "LIBHDR2"

LET abs(n) = n < 0 -> -n, n

LET area2(x, y, n) = VALOF
$(  LET sum = 0
    FOR i = 0 TO n - 1 DO
        sum := sum + x!(i - 1) * y!i - x!i * y!(i - 1)
    RESULTIS abs(sum)
$)

LET START() BE
$(  LET x = TABLE 0, 6, 6, 3, 0
    LET y = TABLE 0, 0, 4, 8, 4
    LET a = area2(x, y, 5)
    WRITEF("area %N%S*N", a / 2, a REM 2 = 1 -> " and a half", "")
$)
