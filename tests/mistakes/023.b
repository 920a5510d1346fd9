GET "LIBHDR"
GLOBAL $( CH:110 $)

LET NEXT() BE CH := RDCH()

LET READN() = VALOF
$( LET N, SIGN = 0, 1
   IF CH = '-' DO $( SIGN := -1; NEXT() $)
   WHILE '0' <= CH <= '9' DO
   $( N := N * 10 + CH - '0'
      NEXT()
   $)
   RESULTIS N * SIGN
$)

LET START() BE
$( LET SUM, N = 0, 0
   NEXT()
   UNTIL CH = ENDSTREAMCH DO
   $( WHILE CH = '*S' | CH = '*N' DO NEXT()
      IF CH = ENDSTREAMCH BREAK
      UNLESS '0' <= CH <= '9' | CH = '-' DO $( NEXT(); LOOP $)
      SUM := SUM + READN()
      N := N + 1
   $)
   WRITES("mean ")
   WRITEN(SUM / N)
   NEWLINE()
$)
