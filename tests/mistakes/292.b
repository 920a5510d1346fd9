// Reads all of the input, and writes it in capitals.
GET "LIBHDR"
MANIFEST $( LAST = 24 $)

LET upper(c) = 'a' <= c <= 'z' -> c - 'a' + 'A', c

LET read(buf) = VALOF
$(  LET n = 0
    $(  buf%n := RDCH()
        n := n + 1
    $) REPEATUNTIL buf%(n-1) = ENDSTREAMCH
    RESULTIS n - 1
$)

LET START() BE
$(  LET buf = VEC LAST
    LET n = read(buf)
    FOR i = 0 TO n - 1 DO WRCH(upper(buf%i))
    WRITEN(n)
    WRITES(" characters*N")
$)
