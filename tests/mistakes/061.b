GET "LIBHDR"

LET ADD(A, B) = A + B
LET SUB(A, B) = A - B
LET MUL(A, B) = A * B
LET KEEP(A, B) = A

LET CHOOSE(OP) = VALOF SWITCHON OP INTO
$( CASE '+': RESULTIS ADD
   CASE '-': RESULTIS '-'
   CASE '**': RESULTIS MUL
   DEFAULT:  RESULTIS KEEP
$)

LET START() BE
$( LET TEXT = "3+4**2-5+1"
   LET V, I, F = TEXT%1 - '0', 2, ?
   // strictly from left to right
   WHILE I < TEXT%0 DO
   $( LET OP, ARG = TEXT%I, TEXT%(I + 1) - '0'
      F := CHOOSE(OP); V := F(V, ARG)
      I := I + 2
   $)
   WRITES(TEXT)
   WRITES(" = ")
   WRITEN(V)
   NEWLINE()
$)
