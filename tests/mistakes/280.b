// Checks ISBNs of ten digits.
GET "LIBHDR2"

LET isdigit(c) = '0' <= c <= '9'

LET weigh(isbn) = VALOF
$(  LET p, w, sum = isbn, 10, 0
    FOR i = 1 TO isbn%0 DO
    $(  LET c = p%1
        IF isdigit(c) DO
        $(  sum := sum + w * (c - '0')
            w := w - 1
        $)
        p := p + 1
    $)
    RESULTIS sum
$)

LET check(isbn) BE
    WRITEF("%S %S*N", isbn, weigh(isbn) REM 11 = 0 -> "good", "bad")

LET START() BE
$(  check("0-306-40615-2")
    check("0-521-21965-4")
$)
