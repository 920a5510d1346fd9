GET "LIBHDR"
GLOBAL $( X:100; Y:101 $)

LET OBEY(WORD) BE
SWITCHON WORD INTO
$( CASE 'N': Y := Y + 1; ENDCASE
   CASE 'S': Y := Y - 1; ENDCASE
   CASE 'E': X := X + 1; ENDCASE
   CASE 'W': X := X - 1; ENDCASE
   DEFAULT:  WRITES("what?*N")
$)

LET START() BE
$( X, Y := 0, 0
   WRITES("turtle*N")
   OBEY("N")
   OBEY("E")
   OBEY("E")
   WRITEN(X)
   WRCH(',')
   WRITEN(Y)
   NEWLINE()
$)
