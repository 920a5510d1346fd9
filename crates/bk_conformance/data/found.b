GET "LIBHDR"
LET START() BE
$( FOR I = 2 TO 9 DO
      FOR J = 2 TO 9 DO
         IF I * J = 42 DO
         $( WRITEN(I); WRCH('**'); WRITEN(J); NEWLINE()
            GOTO FOUND
         $)
   WRITES("none*N")
FOUND:
$)
