GET "LIBHDR2"
GLOBAL $( CH:200 $)

LET NEXTCH() = VALOF
$( LET C = RDCH()
   IF C = '*T' DO C := '*S'
   RESULTIS C
$)

LET NUMBER() = VALOF
$( LET N = 0
   WHILE '0' <= CH <= '9' DO
   $( N := N * 10 + CH - '0'
      NEXTCH()
   $)
   RESULTIS N
$)

LET START() BE
$( LET SUM = 0
   CH := NEXTCH()
   UNTIL CH = ENDSTREAMCH DO
   $( IF '0' <= CH <= '9' DO SUM := SUM + NUMBER()
      CH := NEXTCH()
   $)
   WRITEF("TOTAL %N*N", SUM)
$)
