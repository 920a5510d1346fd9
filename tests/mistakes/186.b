GET "LIBHDR"
GLOBAL $( CH:200; EXPR:201 $)

LET NEXT() BE CH := RDCH() REPEATWHILE CH = '*S'

LET FACTOR() = VALOF
$( LET X = 0
   IF CH = '(' DO
   $( X := EXPR()
      IF CH = ')' DO NEXT()
      RESULTIS X
   $)
   WHILE '0' <= CH <= '9' DO
   $( X := 10 * X + CH - '0'
      NEXT()
   $)
   RESULTIS X
$)

LET TERM() = VALOF
$( LET X = FACTOR()
   WHILE CH = '**' DO $( NEXT(); X := X * FACTOR() $)
   RESULTIS X
$)

LET EXPR() = VALOF
$( LET X = TERM()
   WHILE CH = '+' DO $( NEXT(); X := X + TERM() $)
   RESULTIS X
$)

LET START() BE
$( NEXT()
   UNTIL CH = ENDSTREAMCH DO
   $( WRITEN(EXPR())
      NEWLINE()
      NEXT()
   $)
$)
