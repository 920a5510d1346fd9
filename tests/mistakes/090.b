GET "LIBHDR2"

// pairs of a string and a number
LET SHOWPAIR(P) BE
$( LET S, N = !P, ?
   N := !P + 1
   WRITEF("%S = %N*N", S, N)
$)

LET START() BE
$( LET PAIRS = VEC 5
   PAIRS!0 := "pi times 1000"
   PAIRS!1 := 3141
   PAIRS!2 := "e times 1000"
   PAIRS!3 := 2718
   PAIRS!4 := "root of 2 times 1000"
   PAIRS!5 := 1414
   FOR I = 0 TO 4 BY 2 DO SHOWPAIR(PAIRS + I)
$)
