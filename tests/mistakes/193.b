// Find the longest word in a line of text.
GET "LIBHDR2"
GLOBAL $( CH:100 $)

LET LETTER(C) = 'A' <= C <= 'Z' | 'a' <= C <= 'z'

LET WORDLENGTH() = VALOF
$( LET N = 0
   WHILE LETTER(CH) DO
   $( N := N + 1
      CH := RDCH()
   $)
   RESULTIS N
$)

LET START() BE
$( LET LONGEST, WORDS = ?, 0
   CH := RDCH()
   UNTIL CH = ENDSTREAMCH DO
   $( TEST LETTER(CH) THEN
      $( LET L = WORDLENGTH()
         WORDS := WORDS + 1
         IF L > LONGEST DO LONGEST := L
      $)
      OR CH := RDCH()
   $)
   WRITEF("%N words, the longest has %N letters*N", WORDS, LONGEST)
$)
