GET "LIBHDR"
GLOBAL $( CH:100; EXPR:101 $)

LET NEXT() BE CH := RDCH() REPEATWHILE CH = '*S'

LET FACTOR() = VALOF
$( LET T = 0
   IF CH = '(' DO
   $( NEXT()
      T := EXPR()
      NEXT()
      RESULTIS T
   $)
   WHILE '0' <= CH <= '9' DO
   $( T := 10 * T + CH - '0'
      NEXT()
   $)
   RESULTIS T
$)

LET TERM() = VALOF
$( LET T = FACTOR()
   WHILE CH = '**' DO $( NEXT(); T := T * FACTOR() $)
   RESULTIS T
$)

// expr = expr "+" term | term
LET EXPR() = VALOF
$( LET T = EXPR()
   WHILE CH = '+' DO $( NEXT(); T := T + TERM() $)
   RESULTIS T
$)

LET START() BE
$( NEXT()
   UNTIL CH = ENDSTREAMCH DO
   $( WRITEN(EXPR())
      NEWLINE()
      NEXT()
   $)
$)
