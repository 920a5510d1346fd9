// quicksort after Hoare
GET "LIBHDR2"
MANIFEST $( LAST = 14 $)

LET QSORT(V, L, R) BE
$(  LET I, J, PIVOT = L, R, V!((L + R) / 2)
    WHILE I <= J DO
    $(  WHILE V!I < PIVOT DO I := I + 1
        WHILE V!J > PIVOT DO J := J - 1
        IF I <= J DO
        $(  LET T = V!I
            V!I := V!J
            V!J := T
            I, J := I + 1, J - 1
        $)
    $)
    QSORT(V, L, J)
    QSORT(V, I, R)
$)

LET START() BE
$(  LET V = VEC LAST
    FOR I = 0 TO LAST DO V!I := (I * 37 + 11) REM 50
    QSORT(V, 0, LAST)
    FOR I = 0 TO LAST DO WRITEF("%N ", V!I)
    NEWLINE()
$)
