// Reading the input to its end: its lines, words and bytes.
GET "LIBHDR2"

LET ISBLANK(C) = C = '*S' | C = '*T' | C = '*N'

LET START() BE
$( LET LINES, WORDS, BYTES = 0, 0, 0
   LET INWORD = FALSE
   LET C = RDCH()
   UNTIL C = ENDSTREAMCH DO
   $( BYTES := BYTES + 1
      IF C = '*N' DO LINES := LINES + 1
      TEST ISBLANK(C) THEN INWORD := FALSE
      OR $( UNLESS INWORD DO WORDS := WORDS + 1
            INWORD := TRUE
         $)
      C := RDCH()
   $)
   WRITEF("%N lines, %N words, %N bytes*N", LINES, WORDS, BYTES)
$)
