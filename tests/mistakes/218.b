// morse-like beeper: lengths of the signals of SOS
GET "LIBHDR"
MANIFEST $( DOT = 1; DASH = 3; GAP = 2; ENDMARK = -1 $)

LET BEEP(N) BE
$( FOR I = 1 TO N DO WRCH('=')
   WRCH(' ')
$)

LET PLAY(T) BE
$( LET P = T
   UNTIL !P = ENDMARK DO
   $( TEST !P = GAP
      THEN WRITES("  ")
      ELSE BEEP(!P)
      P := P + 1
   $)
   NEWLINE()
$)

LET START() BE
$( LET SOS = TABLE DOT, DOT, DOT, GAP, DASH, DASH, DASH, GAP, DOT, DOT, DOT, 0
   FOR I = 1 TO 3 DO PLAY(SOS)
$)
