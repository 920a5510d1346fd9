// reads words and prints each on a line between brackets
GET "LIBHDR"
MANIFEST $( MAX = 31 $)
STATIC $( CH = 32 $)

LET BLANK(C) = C = '*S' | C = '*N' | C = '*T'

LET READWORD(BUF) = VALOF
$( LET N = 0
   WHILE BLANK(CH) DO CH := RDCH()
   UNTIL BLANK(CH) | CH = ENDSTREAMCH DO
   $( IF N < MAX DO
      $( N := N + 1
         BUF%N := CH
      $)
      CH := RDCH()
   $)
   RESULTIS N
$)

LET START() BE
$( LET WORD = VEC MAX / 4
   LET N = READWORD(WORD)
   UNTIL N = 0 DO
   $( WRCH('[')
      WRITES(WORD)
      WRITES("]*N")
      N := READWORD(WORD)
   $)
$)
