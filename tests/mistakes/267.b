// numbers the lines of the input
GET "LIBHDR2"

LET line(n, c) BE
$(  WRITEF("%I4  ", n)
    UNTIL c = '*N' DO
    $(  WRCH(c)
        c := RDCH()
    $)
    NEWLINE()
$)

LET START() BE
$(  LET n, c = 0, RDCH()
    UNTIL c = ENDSTREAMCH DO
    $(  n := n + 1
        line(n, c)
        c := RDCH()
    $)
    WRITEF("%N lines*N", n)
$)
