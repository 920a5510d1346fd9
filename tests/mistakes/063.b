GET "LIBHDR"
MANIFEST $( LIMIT = 5; STEP = 1/2 $)

LET LINE(X) BE
$( WRITED(X, 5)
   WRITED(X * X, 7)
   NEWLINE()
$)

// table of squares in half steps
LET START() BE
$( LET LINES = 0
   WRITES("    x    x^2*N")
   FOR X = 0 TO LIMIT BY STEP DO
   $( LINE(X)
      LINES := LINES + 1
   $)
   WRITEN(LINES)
   WRITES(" lines*N")
$)
