// Squares that read the same both ways.
GET "LIBHDR"

LET reverse(n, acc) = n = 0 -> acc,
    reverse(n / 10, acc * 10 + n REM 10)

LET ispal(n) = reverse(n) = n

LET START() BE
    FOR i = 1 TO 120 DO
    $(  LET s = i * i
        IF ispal(s) DO
        $(  WRITEN(s)
            NEWLINE()
        $)
    $)
