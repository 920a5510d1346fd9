GET "LIBHDR2"
GLOBAL $( CH:100; VALUE:101 $)

LET NEXTCH() BE CH := RDCH()

LET NUMBER() BE
$( VALUE := 0
   WHILE '0' <= CH <= '9' DO
   $( VALUE := VALUE * 10 + CH - '0'
      NEXTCH()
   $)
$)

LET START() BE
$( LET COUNT = 0
   NEXTCH()
   UNTIL CH = ENDSTREAMCH DO
   $( IF '0' <= CH <= '9' DO
      $( NUMBER()
         WRITEF("number %N*N", VALUE)
         COUNT := COUNT + 1
      $)
      IF CH = '+' | CH = '-' DO
      $( WRITEF("sign %C*N", CH)
         NEXTCH()
         COUNT := COUNT + 1
      $)
      IF CH = '*S' | CH = '*N' DO NEXTCH()
   $)
   WRITEF("%N symbols*N", COUNT)
$)
