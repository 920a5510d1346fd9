GET "LIBHDR2"
MANIFEST $( N = 3 $)

LET READTITLE(BUF) BE
$( LET K, CH = 0, RDCH()
   UNTIL CH = '*N' | CH = ENDSTREAMCH | K = 39 DO
   $( K := K + 1
      BUF%K := CH
      CH := RDCH()
   $)
   BUF%0 := K
$)

LET START() BE
$( LET TITLE = VEC N - 1
   FOR I = 0 TO N - 1 DO
   $( LET BUF = VEC 10
      READTITLE(BUF)
      TITLE!I := BUF
   $)
   WRITES("In reverse order:*N")
   FOR I = N - 1 TO 0 BY -1 DO
      WRITEF("%S*N", TITLE!I)
$)
