// A small interpreter: each line of the input is an expression of numbers, + - * / and brackets; its value is written.
GET "LIBHDR"
GLOBAL $( CH:100; SUM:101 $)

LET SKIP() BE CH := RDCH() REPEATWHILE CH = '*S'

LET NUMBER() = VALOF
$( LET N = 0
   WHILE '0' <= CH <= '9' DO $( N := 10 * N + CH - '0'; SKIP() $)
   RESULTIS N
$)

LET FACTOR() = VALOF
SWITCHON CH INTO
$( CASE '(': $( LET N = ?
                SKIP()
                N := SUM()
                SKIP()
                RESULTIS N
             $)
   CASE '-': SKIP(); RESULTIS -FACTOR()
   DEFAULT:  RESULTIS NUMBER()
$)

LET TERM() = VALOF
$( LET N = FACTOR()
   $( SWITCHON CH INTO
      $( CASE '**': SKIP(); N := N * FACTOR(); LOOP
         CASE '/':  SKIP(); N := N / FACTOR(); LOOP
         DEFAULT:   RESULTIS N
      $)
   $) REPEAT
$)

LET SUM() = VALOF
$( LET N = TERM()
   $( SWITCHON CH INTO
      $( CASE '+': SKIP(); N := N + TERM(); LOOP
         CASE '-': SKIP(); N := N - TERM(); LOOP
         DEFAULT:  RESULTIS N
      $)
   $) REPEAT
$)

LET START() BE
$( SKIP()
   IF CH = ENDSTREAMCH RETURN
   WRITEN(SUM()); NEWLINE()
$) REPEAT
