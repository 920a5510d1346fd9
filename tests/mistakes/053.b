GET "LIBHDR"
GLOBAL $( OUTPOS:6; MARGIN:202; TAB:203 $)

LET TAB(N) BE
$( WHILE OUTPOS < MARGIN + N DO
   $( WRCH('*S')
      OUTPOS := OUTPOS + 1
   $)
$)

LET START() BE
$( MARGIN := 4
   OUTPOS := 0
   TAB(4)
   WRITES("first line*N")
   OUTPOS := 0
   TAB(8)
   WRITES("second line*N")
$)
