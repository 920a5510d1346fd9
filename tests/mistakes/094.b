GET "LIBHDR"
MANIFEST $( MAX = 20 $)

LET READIN(V) BE
$( LET N, CH = 0, ?
   $( CH := RDCH()
      IF '0' <= CH <= '9' & N < MAX DO
      $( N := N + 1
         V!N := CH - '0'
      $)
   $) REPEATUNTIL CH = ENDSTREAMCH
$)

LET SUM(V) = VALOF
$( LET S = 0
   FOR I = 1 TO V!0 DO
      S := S + V!I
   RESULTIS S
$)

LET START() BE
$( LET V = VEC MAX
   READIN(V)
   WRITES("sum ")
   WRITEN(SUM(V))
   NEWLINE()
$)
