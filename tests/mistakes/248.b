// FIRST FIT ALLOCATION IN AN ARENA
GET "LIBHDR2"
MANIFEST $( SIZE = 60; FREE = 1; BUSY = 2; HDR = 2 $)
STATIC $( ARENA = 0 $)

LET SETUP(V) BE
$(  ARENA := V
    V!0 := SIZE
    V!1 := FREE
$)

LET ALLOC(N) = VALOF
$(  LET P = ARENA
    UNTIL !P = 0 DO
    $(  IF P!1 = FREE & !P >= N + HDR DO
        $(  LET REST = !P - N - HDR
            IF REST > HDR DO
            $(  LET Q = P + N + HDR
                Q!0, Q!1 := REST, FREE
                P!0 := N + HDR
            $)
            P!1 := BUSY
            RESULTIS P + HDR
        $)
        P := P + !P
    $)
    RESULTIS 0
$)

LET RELEASE(X) BE X!(-1) := FREE

LET START() BE
$(  LET V = VEC SIZE
    LET A, B, C, D = ?, ?, ?, ?
    SETUP(V)
    A, B, C := ALLOC(10), ALLOC(20), ALLOC(8)
    WRITEF("A TO B %N, B TO C %N*N", B - A, C - B)
    RELEASE(B)
    D := ALLOC(15)
    IF D = B DO WRITES("D HAS THE PLACE OF B*N")
    IF ALLOC(40) = 0 DO WRITES("ARENA IS FULL*N")
$)
