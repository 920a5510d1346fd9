// SHELL'S SORT
GET "LIBHDR2"

LET SHELL(V, N) BE
$(  LET GAP = N / 2
    WHILE GAP > 0 DO
    $(  FOR I = GAP TO N - 1 DO
        $(  LET T, J = V!I, I
            WHILE V!(J - GAP) > T & J >= GAP DO
            $(  V!J := V!(J - GAP)
                J := J - GAP
            $)
            V!J := T
        $)
        GAP := GAP / 2
    $)
$)

LET START() BE
$(  LET DATA = TABLE 44, 55, 12, 42, 94, 18, 6, 67
    SHELL(DATA, 8)
    FOR I = 0 TO 7 DO WRITEF("%I4", DATA!I)
    NEWLINE()
$)
