GET "LIBHDR2"

LET START() BE
$( LET LETTERS, WORDS, C, LAST = 0, 0, 0, '*S'
   $( C := RDCH()
      TEST 'A' <= C <= 'Z'
      THEN $( LETTERS := LETTERS + 1
              IF LAST = '*S' DO WORDS := WORDS + 1
              LAST := C
           $)
      OR LAST := '*S'
   $) REPEATUNTIL C = '.'
   WRITEF("%N WORDS, %N LETTERS*N", WORDS, LETTERS)
$)
