// expression evaluator, recursive descent
GET "LIBHDR2"
GLOBAL $( CH:100; EXPR:101 $)

LET NEXTCH() BE CH := RDCH() REPEATWHILE CH = '*S'

LET NUMBER() = VALOF
$( LET N = 0
   WHILE '0' <= CH <= '9' DO
   $( N := N * 10 + CH - '0'
      NEXTCH()
   $)
   RESULTIS N
$)

LET FACTOR() = VALOF
$( LET N = ?
   UNLESS CH = '(' DO RESULTIS NUMBER()
   NEXTCH()
   N := EXPR()
   RESULTIS N
$)

LET TERM() = VALOF
$( LET N = FACTOR()
   WHILE CH = '**' DO
   $( NEXTCH()
      N := N * FACTOR()
   $)
   RESULTIS N
$)

LET EXPR() = VALOF
$( LET N = TERM()
   WHILE CH = '+' DO
   $( NEXTCH()
      N := N + TERM()
   $)
   RESULTIS N
$)

LET START() BE
$( NEXTCH()
   UNTIL CH = ENDSTREAMCH DO
   $( WRITEF("= %N*N", EXPR())
      WHILE CH = '*N' DO NEXTCH()
   $)
$)
