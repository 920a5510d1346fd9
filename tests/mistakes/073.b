GET "LIBHDR"
GLOBAL $( INPUT:180; POS:181 $)

LET OPEN(S) BE
$( LET LINE = VEC 63
   FOR I = 0 TO S%0 DO LINE%I := S%I
   // capitals only
   FOR I = 1 TO S%0 DO
      IF 'a' <= LINE%I <= 'z' DO LINE%I := LINE%I - 32
   INPUT := LINE
   POS := 0
$)

LET NEXTCH() = VALOF
$( POS := POS + 1
   $( LET C = INPUT%POS
      RESULTIS C
   $)
$)

LET START() BE
$( OPEN("go north")
   $( LET C = NEXTCH()
      IF C = 0 BREAK
      WRCH(C)
   $) REPEAT
   NEWLINE()
$)
