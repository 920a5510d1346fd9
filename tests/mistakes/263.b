// STOCK OF A SHOP
GET "LIBHDR2"
MANIFEST $( ITEM = 0; QTY = 1; BIN = 2; RSIZE = 3 $)

LET FILL(P, NAME, N, B) = VALOF
$(  ITEM!P := NAME
    QTY!P := N
    BIN!P := B
    RESULTIS P + RSIZE
$)

LET SHOW(P) BE
    WRITEF("%S: %N IN BIN %C*N", QTY!P, ITEM!P, BIN!P)

LET START() BE
$(  LET V = VEC 30
    LET P, LOW = V, 0
    P := FILL(P, "NAILS", 1200, 'A')
    P := FILL(P, "SCREWS", 15, 'C')
    P := FILL(P, "HINGES", 8, 'B')
    UNTIL P = V DO
    $(  P := P - RSIZE
        IF QTY!P < 20 DO
        $(  LOW := LOW + 1
            SHOW(P)
        $)
    $)
    WRITEF("%N ITEMS TO ORDER*N", LOW)
$)
