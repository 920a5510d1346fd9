GET "LIBHDR2"
GLOBAL $( RDCH:900; UNRDCH:901; READN:902; TERMINATOR:903; RESULT2:904; READNUMBER:908 $)
LET START() BE
$( // nothing to give back
   WRITEF("%N*N", UNRDCH())
   // five numbers, each with the byte after it, which is read
   FOR I = 1 TO 5 DO
   $( LET N = READNUMBER()
      WRITEF("%N %N %N*N", N, TERMINATOR, RESULT2)
   $)
   // a byte that is given back
   $( LET C = RDCH()
      WRITEF("%N ", C)
      UNRDCH()
      WRITEF("%N ", RDCH())
      WRITEF("%N*N", RDCH())
   $)
   // three numbers, each with the byte after it, which is not read; and no digit
   FOR I = 1 TO 4 DO
   $( LET N = READN()
      LET R = RESULT2
      WRITEF("%N %N %N*N", N, R, RDCH())
   $)
   // no digit, and the end
   $( LET N = READNUMBER()
      WRITEF("%N %N %N*N", N, TERMINATOR, RESULT2)
      N := READNUMBER()
      WRITEF("%N %N %N*N", N, TERMINATOR, RESULT2)
      N := READN()
      WRITEF("%N %N %N*N", N, RESULT2, RDCH())
      UNRDCH()
      WRITEF("%N*N", RDCH())
   $)
$)
