// sum and largest of n numbers; n comes first
GET "LIBHDR2"
STATIC $( ch = 0; num = 0 $)

LET readnum() BE
$(  LET neg = FALSE
    WHILE ch = ' ' | ch = '*N' DO ch := RDCH()
    IF ch = '-' DO
    $(  neg := TRUE
        ch := RDCH()
    $)
    num := 0
    WHILE '0' <= ch <= '9' DO
    $(  num := 10 * num + ch - '0'
        ch := RDCH()
    $)
    IF neg DO num := -num
$)

LET START() BE
$(  LET n, sum, big = 0, 0, -1000000
    ch := RDCH()
    readnum()
    n := num
    FOR i = 1 TO n DO
    $(  LET x = readnum()
        sum := sum + x
        IF x > big DO big := x
    $)
    WRITEF("%N numbers, sum %N, largest %N*N", n, sum, big)
$)
