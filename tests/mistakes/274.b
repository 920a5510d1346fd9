// BINARY SEARCH IN THE SQUARES
GET "LIBHDR2"
MANIFEST $( N = 20 $)

LET SEARCH(V, X) = VALOF
$(  LET LO, HI = 0, N - 1
    WHILE LO <= HI DO
    $(  LET MID = (LO + HI) / 2
        IF V!MID = X RESULTIS MID
        TEST V!MID < X
        THEN LO := MID
        ELSE HI := MID - 1
    $)
    RESULTIS -1
$)

LET START() BE
$(  LET V = VEC N - 1
    FOR I = 0 TO N - 1 DO V!I := I * I
    FOR X = 80 TO 83 DO
    $(  LET P = SEARCH(V, X)
        TEST P < 0
        THEN WRITEF("%N IS NO SQUARE*N", X)
        ELSE WRITEF("%N IS THE SQUARE OF %N*N", X, P)
    $)
$)
