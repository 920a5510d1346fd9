// FERMAT'S TEST FOR PRIMES
GET "LIBHDR2"

LET POWMOD(X, N, M) = VALOF
$(  IF N = 0 RESULTIS 1
    TEST N REM 2 = 0
    THEN
    $(  LET H = POWMOD(X, N / 2, M)
        H := H * H REM M
    $)
    ELSE RESULTIS X * POWMOD(X, N - 1, M) REM M
$)

LET PROBABLY(P) = POWMOD(2, P - 1, P) = 1

LET START() BE
$(  LET COUNT = 0
    FOR P = 3 TO 99 BY 2 DO
        IF PROBABLY(P) DO
        $(  COUNT := COUNT + 1
            WRITEF("%I4", P)
            IF COUNT REM 8 = 0 DO NEWLINE()
        $)
    NEWLINE()
$)
