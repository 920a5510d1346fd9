// reverses a line of text
GET "LIBHDR"
MANIFEST $( MAXLINE = 80 $)

LET READLINE(BUF) = VALOF
$( LET N, C = 0, RDCH()
   UNTIL C = '*N' | C = ENDSTREAMCH | N = MAXLINE DO
   $( BUF!N := C
      N := N + 1
      C := RDCH()
   $)
   RESULTIS N
$)

LET START() BE
$( LET LINE = VEC MAXLINE
   LET J = ?
   LET I = J = 0
   LET LENGTH = READLINE(LINE)
   J := J + LENGTH - 1
   WHILE I < J DO
   $( LET T = LINE!I
      LINE!I := LINE!J
      LINE!J := T
      I, J := I + 1, J - 1
   $)
   FOR K = 0 TO LENGTH - 1 DO WRCH(LINE!K)
   NEWLINE()
$)
