// Strips comments that begin with a semicolon from assembler source
GET "LIBHDR"
STATIC $( LINES = 0; REMOVED = 0 $)

LET SKIPCOMMENT() = VALOF
$( LET CH = ?
   REMOVED := REMOVED + 1
   CH := RDCH() REPEATUNTIL CH = '*N'
   RESULTIS CH
$)

LET START() BE
$( LET CH = RDCH()
   UNTIL CH = ENDSTREAMCH DO
   $( IF CH = ';' DO CH := SKIPCOMMENT()
      IF CH = '*N' DO LINES := LINES + 1
      WRCH(CH)
      CH := RDCH()
   $)
   WRITED(LINES, 5); WRITES(" lines*N")
   WRITED(REMOVED, 5); WRITES(" comments*N")
$)
