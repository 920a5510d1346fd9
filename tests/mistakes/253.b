// IS IT A PALINDROME?
GET "LIBHDR2"

LET REVERSE(S, T) BE
$(  LET J = 0
    FOR I = S%0 TO 1 BY 1 DO
    $(  J := J + 1
        T%J := S%I
    $)
    T%0 := S%0
$)

LET SAME(S, T) = VALOF
$(  UNLESS S%0 = T%0 RESULTIS FALSE
    FOR I = 1 TO S%0 UNLESS S%I = T%I RESULTIS FALSE
    RESULTIS TRUE
$)

LET TRY(S) BE
$(  LET T = VEC 63
    REVERSE(S, T)
    WRITEF("%S %S A PALINDROME*N", S, SAME(S, T) -> "IS", "IS NOT")
$)

LET START() BE
$(  TRY("X")
    TRY("LEVEL")
    TRY("BCPL")
    TRY("ABBA")
$)
