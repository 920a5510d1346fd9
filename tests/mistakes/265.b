// PUTS NAMES INTO ORDER
GET "LIBHDR2"
MANIFEST $( N = 5 $)

LET COMPARE(A, B) = VALOF
$(  LET M = A%0 < B%0 -> A%0, B%0
    FOR I = 1 TO M DO
        UNLESS A%I = B%I RESULTIS A!I - B!I
    RESULTIS A%0 - B%0
$)

LET SORT(V) BE
    FOR I = 1 TO N - 1 DO
        FOR J = I + 1 TO N DO
            IF COMPARE(V!I, V!J) > 0 DO
            $(  LET T = V!I
                V!I := V!J
                V!J := T
            $)

LET START() BE
$(  LET V = VEC N
    V!1, V!2, V!3 := "PLUM", "PEAR", "FIG"
    V!4, V!5 := "PLUMS", "APPLE"
    SORT(V)
    FOR I = 1 TO N DO WRITEF("%S*N", V!I)
$)
