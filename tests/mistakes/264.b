// DIFFERENCES OF FRACTIONS
GET "LIBHDR2"

LET GCD(A, B) = VALOF
$(  LET R = A REM B
    IF R = 0 RESULTIS B
    RESULTIS GCD(B, R)
$)

LET FRACTION(N, D) BE
    TEST D = 1 THEN WRITEN(N) ELSE WRITEF("%N/%N", N, D)

LET SHOW(A, B, C, D) BE
$(  LET N, M = A * D - C * B, B * D
    LET G = GCD(M, N)
    FRACTION(A, B); WRITES(" - ")
    FRACTION(C, D); WRITES(" = ")
    FRACTION(N / G, M / G); NEWLINE()
$)

LET START() BE
$(  SHOW(1, 2, 1, 3)
    SHOW(3, 4, 1, 12)
    SHOW(7, 2, 1, 2)
    SHOW(2, 6, 1, 3)
    SHOW(5, 8, 3, 8)
$)
