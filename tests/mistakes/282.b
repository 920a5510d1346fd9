// Pascal's triangle, centred.
GET "LIBHDR"
MANIFEST $( ROWS = 7 $)

LET times(ch, n) BE
    FOR i = 1 TO n DO WRCH(ch)

LET next(row, n) BE
$(  row!n := 1
    FOR i = n - 1 TO 1 BY -1 DO
        row!i := row!i + row!(i-1)
$)

LET START() BE
$(  LET row = VEC ROWS
    FOR n = 0 TO ROWS - 1 DO
    $(  next(row, n)
        times(" ", 3 * (ROWS - 1 - n))
        FOR i = 0 TO n DO WRITED(row!i, 6)
        NEWLINE()
    $)
$)
