// Readings in several scales. The scale is a power of two.
GET "LIBHDR2"

LET ash(x, n) = x << n

LET ratio(a, b, n) = a / ash(b, n)

LET START() BE
$(  LET reading = TABLE 640, 96, 1280, 77
    FOR i = 0 TO 3 DO
    $(  LET r = reading!i
        WRITEF("%I6 %I6 %I6*N", r, ratio(r, 5, 2), ratio(r, 64, -3))
    $)
$)
