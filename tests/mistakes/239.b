// Full names for the index of authors
GET "LIBHDR"

LET append(dst, src) BE
$(  LET n = GETBYTE(dst, 0)
    FOR i = 1 TO GETBYTE(src, 0) DO
        PUTBYTE(dst, n + i, GETBYTE(src, i))
    PUTBYTE(dst, 0, n + GETBYTE(src, 0))
$)

LET fullname(first, last, res) BE
$(  PUTBYTE(res, 0, 0)
    append(res, last)
    append(res, ", ")
    append(res, first)
$)

LET entry(first, last) BE
$(  LET name = VEC 5
    fullname(first, last, name)
    WRITES(name)
    FOR i = GETBYTE(name, 0) TO 30 DO WRCH('.')
    NEWLINE()
$)

LET START() BE
$(  entry("Maurice", "Wilkes")
    entry("Christopher", "Strachey")
    entry("Augusta Ada King", "Lovelace")
    entry("Grace", "Hopper")
$)
