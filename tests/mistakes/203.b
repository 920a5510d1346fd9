// Sum of the numbers in the input
GET "LIBHDR2"
STATIC $( TERMINATOR = 0 $)

LET READNUMBER() = VALOF
$( LET N, CH = 0, RDCH()
   WHILE CH = ' ' | CH = '*N' DO CH := RDCH()
   WHILE '0' <= CH <= '9' DO
   $( N := 10 * N + CH - '0'
      CH := RDCH()
   $)
   TERMINATOR := CH
   RESULTIS N
$)

LET START() BE
$( LET COUNT = READNUMBER()
   LET SUM = 0
   WRITEF("adding %N numbers*N", COUNT)
   FOR I = 1 TO COUNT DO
      SUM := SUM + READNUMBER
   WRITEF("the sum is %N*N", SUM)
$)
