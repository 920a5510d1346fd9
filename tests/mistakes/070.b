GET "LIBHDR2"
MANIFEST $( OUTSIDE = 1; INWORD = 2 $)

LET LETTER(C) = 'a' <= C <= 'z' | 'A' <= C <= 'Z'

LET START() BE
$( LET STATE, N, CH = ?, 0, ?
   $( CH := RDCH()
      IF CH = ENDSTREAMCH BREAK
      IF LETTER(CH) DO
      $( IF STATE = INWORD DO $( N := N + 1; WRCH(CH) $)
         IF STATE = OUTSIDE DO
         $( N := 1
            WRCH(CH)
         $)
         STATE := INWORD
         LOOP
      $)
      IF STATE = INWORD DO WRITEF(" (%N)*N", N)
      STATE := OUTSIDE
   $) REPEAT
$)
