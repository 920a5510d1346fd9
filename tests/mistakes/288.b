// A drawing is a word of eight moves, four bits each, -8 to 7.
GET "LIBHDR"
MANIFEST $( WIDTH = 30 $)

LET signed(nibble) = (nibble << 28) >> 28

LET draw(line, moves) BE
$(  LET x = WIDTH / 2
    FOR i = 0 TO 7 DO
    $(  x := x + signed(moves >> 4 * i)
        line!x := '**'
    $)
$)

LET START() BE
$(  LET line = VEC WIDTH
    FOR i = 0 TO WIDTH DO line!i := '.'
    draw(line, #X3E2D71F5)
    FOR i = 0 TO WIDTH DO WRCH(line!i)
    NEWLINE()
$)
