GET "LIBHDR2"
MANIFEST $( RECORD = 2; COUNT = 4 $)

LET TOTAL(BASE) = VALOF
$( LET P, SUM = BASE, 0
   LET LAST = BASE + (COUNT - 1) * RECORD
   LET LIMIT = ?
   LIMIT := LAST!0
   WHILE P < LIMIT DO
   $( SUM := SUM + P!0 * P!1
      P := P + RECORD
   $)
   RESULTIS SUM + LAST!0 * LAST!1
$)

LET START() BE
$( // number of pieces, price of one
   LET STOCK = TABLE 10, 3, 4, 25, 7, 12, 1, 99
   WRITEF("value of the stock: %N*N", TOTAL(STOCK))
$)
