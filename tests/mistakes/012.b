GET "LIBHDR2"

LET DAYNUMBER(D, M) = VALOF
$( LET DAYS = TABLE 31, 28, 31, 30, 31, 30, 31, 31, 30, 31, 30, 31
   LET N = D
   // add the months that are over
   FOR I = 1 TO M DO
      N := N + DAYS!I
   RESULTIS N
$)

LET SHOW(D, M) BE
   WRITEF("%I2.%I2. is day %I3*N", D, M, DAYNUMBER(D, M - 1))

LET LASTDAY() = DAYNUMBER(0, 12)

LET START() BE
$( SHOW(1, 1)
   SHOW(28, 2)
   SHOW(1, 3)
   SHOW(24, 12)
   WRITEF("days in a year: %N*N", LASTDAY())
$)
