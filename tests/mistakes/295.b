// A matrix times a vector.
GET "LIBHDR2"
MANIFEST $( ROWS = 4; COLS = 3 $)

LET at(i, j) = i * ROWS + j

LET fill(m) BE
    FOR i = 0 TO ROWS - 1 DO
        FOR j = 0 TO COLS - 1 DO
            m!at(i, j) := (i + 1) * (j + 2)

LET multiply(m, x, y) BE
    FOR i = 0 TO ROWS - 1 DO
    $(  y!i := 0
        FOR j = 0 TO COLS - 1 DO
            y!i := y!i + m!at(i, j) * x!j
    $)

LET START() BE
$(  LET m = VEC ROWS * COLS - 1
    LET y = VEC ROWS - 1
    LET x = TABLE 1, 10, 100
    fill(m)
    multiply(m, x, y)
    FOR i = 0 TO ROWS - 1 DO WRITEF("%N*N", y!i)
$)
