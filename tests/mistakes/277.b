// Caesar's cipher, there and back.
GET "LIBHDR"

LET rot(c, k) = VALOF
$(  IF 'a' <= c <= 'z' THEN RESULTIS 'a' + (c - 'a' + k) REM 26
    IF 'A' <= c <= 'Z' THEN RESULTIS 'A' + (c - 'A' + k) REM 26
    RESULTIS c
$)

LET encode(src, dst, k) BE
$(  LET n = src%0
    FOR i = 1 TO n DO dst%i := rot(src%i, k)
$)

LET START() BE
$(  LET out = VEC 15
    LET back = VEC 15
    encode("Attack at dawn", out, 3)
    WRITES(out); NEWLINE()
    encode(out, back, 23)
    WRITES(back); NEWLINE()
$)
