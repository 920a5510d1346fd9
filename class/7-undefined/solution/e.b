GET "LIBHDR2"

// A table with a total: "7 apples, 5 pears, 12 in all".
GLOBAL $( TOTAL : 200 $)

LET LINE(NAME, N) BE
$( WRITEF("%N %S, ", N, NAME)
   TOTAL := TOTAL + N
$)

LET START() BE
$( TOTAL := 0
   LINE("apples", 7)
   LINE("pears", 5)
   WRITEF("%N in all", TOTAL)
$)
