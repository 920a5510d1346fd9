// lexer: one token to a line
GET "LIBHDR2"
STATIC $( ch = 0; len = 0; buf = 0 $)

LET next() BE ch := RDCH()

LET put(c) BE
$(  len := len + 1
    PUTBYTE(buf, len, c)
    PUTBYTE(buf, 0, len)
$)

LET letter(c) = 'a' <= c <= 'z' | 'A' <= c <= 'Z'
LET digit(c) = '0' <= c <= '9'

LET token() BE
$(  len := 0
    PUTBYTE(buf, 0, 0)
    IF letter(ch) DO
    $(  WHILE letter(ch) | digit(ch) DO $( put(ch); next() $)
        WRITEF("name   %S*N", buf)
        RETURN
    $)
    IF digit(ch) DO
    $(  WHILE digit(ch) DO $( put(ch); next() $)
        WRITEF("number %S*N", buf)
        RETURN
    $)
    IF ch = '*"' DO
    $(  next()
        UNTIL ch = '*"' DO $( put(ch); next() $)
        next()
        WRITEF("string %S*N", buf)
        RETURN
    $)
    WRITEF("sign   %C*N", ch)
    next()
$)

LET START() BE
$(  LET v = VEC 63
    buf := v
    next()
    $(  WHILE ch = ' ' | ch = '*N' DO next()
        IF ch = ENDSTREAMCH BREAK
        token()
    $) REPEAT
$)
