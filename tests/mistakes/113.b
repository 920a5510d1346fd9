GET "LIBHDR2"
MANIFEST $( BLOCK = 4 $)
GLOBAL $( FREE:100 $)

LET GIVEBACK(B) BE
$( B!0 := FREE
   FREE := B
$)

LET GET.BLOCK() = VALOF
$( LET B = FREE
   IF B = 0 DO $( WRITES("no store*N"); STOP(1) $)
   FREE := B!0
   RESULTIS B
$)

LET COUNTFREE() = VALOF
$( LET P, N = FREE, 0
   UNTIL P = 0 DO
   $( N := N + 1
      P := P!0
   $)
   RESULTIS N
$)

LET START() BE
$( LET ARENA = VEC 10 * BLOCK
   LET A, B = ?, ?
   FREE := 0
   FOR I = 0 TO 9 DO GIVEBACK(ARENA + I * BLOCK)
   A := GET.BLOCK()
   B := GET.BLOCK()
   WRITEF("%N free*N", COUNTFREE())
   GIVEBACK(A)
   WRITEF("%N free*N", COUNTFREE())
   GIVEBACK(A)
   WRITEF("%N free*N", COUNTFREE())
$)
