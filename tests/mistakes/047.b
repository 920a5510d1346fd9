GET "LIBHDR"
STATIC $( ITEMS = 0 $)

LET ITEM(N, S, WIDTH) BE
$( WRITED(N, WIDTH)
   WRITES(" x ")
   WRITES(S)
   NEWLINE()
   ITEMS := ITEMS + 1
$)

LET INVOICE(WHO) BE
$( WRITES("To ")
   WRITES(WHO)
   NEWLINE()
   ITEM(3, "matches", 4)
   ITEM("candles", 12, 4)
   ITEM(1, "lamp", 4)
   WRITEN(ITEMS)
   WRITES(" items*N")
$)

LET START() BE INVOICE("the lighthouse")
