GET "LIBHDR2"

// change with as few coins as possible
LET CHANGE(N) BE
$( LET VALUE = TABLE 100, 50, 20, 10, 5, 2, 1
   WRITEF("%I3:", N)
   FOR I = 0 TO 7 DO
   $( LET Q = N / (VALUE!I)
      N := N - Q * VALUE!I
      FOR J = 1 TO Q DO WRITEF(" %N", VALUE!I)
   $)
   NEWLINE()
$)

LET START() BE
$( CHANGE(186)
   CHANGE(99)
   CHANGE(3)
$)
