// 3 BY 3 MATRICES AS VECTORS OF ROWS
GET "LIBHDR2"
MANIFEST $( N = 3 $)

LET MAKE(M, F) BE
    FOR I = 0 TO N-1 DO
    $(  LET ROW = VEC N-1
        FOR J = 0 TO N-1 DO ROW!J := F(I, J)
        M!I := ROW
    $)

LET SUMIJ(I, J) = I + J
LET UNIT(I, J) = I = J -> 1, 0

LET MULT(A, B, C) BE
    FOR I = 0 TO N-1 DO
        FOR J = 0 TO N-1 DO
        $(  LET S = 0
            FOR K = 0 TO N-1 DO S := S + A!I!K * B!K!J
            C!I!J := S
        $)

LET PRINT(M) BE
    FOR I = 0 TO N-1 DO
    $(  FOR J = 0 TO N-1 DO WRITEF("%I5", M!I!J)
        NEWLINE()
    $)

LET START() BE
$(  LET A, B, C = VEC N-1, VEC N-1, VEC N-1
    MAKE(A, SUMIJ)
    MAKE(B, UNIT)
    MAKE(C, UNIT)
    MULT(A, B, C)
    PRINT(C)
$)
