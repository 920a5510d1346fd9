GET "LIBHDR"

LET PUTS(S) BE
$( LET I = 0
   UNTIL S%I = 0 DO
   $( WRCH(S%I)
      I := I + 1
   $)
   NEWLINE()
$)

LET START() BE
$( LET WORD = VEC 20
   LET N, CH = 0, RDCH()
   UNTIL CH = ENDSTREAMCH DO
   $( TEST 'a' <= CH <= 'z'
      THEN $( WORD%N := CH
              N := N + 1
           $)
      ELSE $( IF N > 0 DO PUTS(WORD)
              N := 0
           $)
      CH := RDCH()
   $)
$)
