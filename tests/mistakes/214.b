// FROM AN OLD LISTING - LARGEST LETTER IN EACH LINE
GET "LIBHDR2"

LET START() BE
$( LET CH, BEST, POS, N = ?, ?, ?, 0
   CH := RDCH()
   GOTO AGAIN
INIT:
   BEST := 0
   POS := 0
   N := 0
AGAIN:
   IF CH = ENDSTREAMCH DO FINISH
   IF CH = '*N' DO GOTO EOL
   N := N + 1
   IF CH > BEST DO
   $( BEST := CH
      POS := N
   $)
   CH := RDCH()
   GOTO AGAIN
EOL:
   IF N > 0 DO WRITEF("%C at %N*N", BEST, POS)
   CH := RDCH()
   GOTO INIT
$)
