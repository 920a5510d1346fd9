GET "LIBHDR2"

LET RUN(S) BE
$( LET STACK = VEC 20
   LET TOP = -1
   FOR I = 1 TO S%0 DO
      SWITCHON S%I INTO
      $( CASE 'D': TOP := TOP + 1
                   STACK!TOP := STACK!(TOP - 1)
         CASE 'X': TOP := TOP - 1
                   ENDCASE
         CASE '+': TOP := TOP - 1
                   STACK!TOP := STACK!TOP + STACK!(TOP + 1)
                   ENDCASE
         CASE '=': WRITEF("%N*N", STACK!TOP)
                   ENDCASE
         DEFAULT:  TOP := TOP + 1
                   STACK!TOP := S%I - '0'
      $)
$)

LET START() BE
$( RUN("34+=")
   RUN("89X=")
   RUN("7D+=")
$)
