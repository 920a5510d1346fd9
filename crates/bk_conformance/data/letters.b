GET "LIBHDR2"

LET START() BE
$( LET VOWELS, DIGITS, OTHERS = 0, 0, 0
   LET C = RDCH()
   UNTIL C = ENDSTREAMCH DO
   $( SWITCHON C INTO
      $( CASE 'a': CASE 'e': CASE 'i': CASE 'o': CASE 'u':
            VOWELS := VOWELS + 1
            ENDCASE
         CASE '*N': CASE '*S':
            ENDCASE
         DEFAULT:
            TEST '0' <= C <= '9'
            THEN DIGITS := DIGITS + 1
            ELSE OTHERS := OTHERS + 1
      $)
      C := RDCH()
   $)
   WRITEF("%N vowels, %N digits, %N others*N", VOWELS, DIGITS, OTHERS)
$)
