// the harmonic numbers as fractions
GET "LIBHDR2"
MANIFEST $( NUM = 0; DEN = 1 $)

LET gcd(a, b) = b = 0 -> a, gcd(b, a REM b)

LET fraction(n, d) = VALOF
$(  LET f, g = VEC 1, gcd(n, d)
    NUM!f := n / g
    DEN!f := d / g
    RESULTIS f
$)

LET add(a, b) =
    fraction(NUM!a * DEN!b + NUM!b * DEN!a, DEN!a * DEN!b)

LET show(f) BE WRITEF("%N/%N*N", NUM!f, DEN!f)

LET START() BE
$(  LET sum = fraction(0, 1)
    FOR i = 1 TO 8 DO
    $(  sum := add(sum, fraction(1, i))
        show(sum)
    $)
$)
