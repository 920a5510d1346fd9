GET "LIBHDR"

LET COUNT() = VALOF
$( LET N, CH = 0, ?
   $( CH := RDCH()
      IF CH = ENDSTREAMCH BREAK
      IF CH = "N" BREAK
      IF CH = 'y' DO N := N + 1
   $) REPEAT
   RESULTIS N
$)

LET START() BE
$( WRITES("Answer y or N*N")
   WRITEN(COUNT())
   WRITES(" times yes*N")
$)
