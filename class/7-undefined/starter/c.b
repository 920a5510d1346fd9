GET "LIBHDR"

// The signs of -7, 0 and 12: -1 0 1.
LET SIGN(X) = VALOF
$( IF X < 0 DO RESULTIS -1
   IF X > 0 DO RESULTIS 1
$)

LET SHOW(X) BE
$( LET S = SIGN(X)
   WRITEN(S)
   WRCH('*S')
$)

LET START() BE
$( SHOW(-7)
   SHOW(0)
   SHOW(12)
$)
