// a tiny command reader: add n, sub n, show, stop
GET "LIBHDR2"
STATIC $( ch = 0 $)

LET readword(w) BE
$(  LET n = 0
    WHILE ch = ' ' | ch = '*N' DO ch := RDCH()
    UNTIL ch = ' ' | ch = '*N' | ch = ENDSTREAMCH DO
    $(  IF n < 20 DO $( n := n + 1; w%n := ch $)
        ch := RDCH()
    $)
    w%0 := n
$)

LET readnum() = VALOF
$(  LET n = 0
    WHILE ch = ' ' DO ch := RDCH()
    WHILE '0' <= ch <= '9' DO
    $(  n := 10 * n + ch - '0'
        ch := RDCH()
    $)
    RESULTIS n
$)

LET same(a, b) = VALOF
$(  FOR i = 0 TO a%0 UNLESS a%i = b%i RESULTIS FALSE
    RESULTIS TRUE
$)

LET START() BE
$(  LET w, total = VEC 5, 0
    ch := RDCH()
    $(  readword(w)
        IF w%0 = 0 BREAK
        IF same(w, "add") DO total := total + readnum()
        IF same(w, "sub") DO total := total - readnum()
        IF same(w, "show") DO WRITEF("%N*N", total)
        IF w = "stop" BREAK
    $) REPEAT
    WRITES("bye*N")
$)
