// The lowest and the highest mark of a class.
GET "LIBHDR2"
MANIFEST $( MAX = 7 $)          // the marks are 0 to MAX

LET lowest(v) = VALOF
$(  LET low = v!0
    FOR i = 1 TO MAX DO
        IF v!i < low THEN low := v!i
    RESULTIS low
$)

LET highest(v) = VALOF
$(  LET max = v!0
    FOR i = 1 TO MAX DO
        IF v!i > max THEN max := v!i
    RESULTIS max
$)

LET START() BE
$(  LET mark = TABLE 61, 75, 48, 90, 33, 82, 57, 70
    WRITEF("lowest %N*N", lowest(mark))
    WRITEF("highest %N*N", highest(mark))
$)
