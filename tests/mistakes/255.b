// WHICH DATE IS DAY D OF A YEAR?
GET "LIBHDR2"

LET LEAP(Y) = Y REM 4 = 0 & Y REM 100 ~= 0 | Y REM 400 = 0

LET MONTHLEN(M, Y) = VALOF
$(  LET T = TABLE 0, 31, 28, 31, 30, 31, 30, 31, 31, 30, 31, 30, 31
    LET N = T!M
    IF M = 2 DO N := N + LEAP(Y)
    RESULTIS N
$)

LET SHOW(D, Y) BE
$(  LET M, R = 1, D
    UNTIL R <= MONTHLEN(M, Y) DO
    $(  R := R - MONTHLEN(M, Y)
        M := M + 1
    $)
    WRITEF("DAY %N OF %N IS %N/%N*N", D, Y, R, M)
$)

LET START() BE
$(  SHOW(60, 1979)
    SHOW(365, 1979)
    SHOW(32, 1980)
    SHOW(366, 1980)
$)
