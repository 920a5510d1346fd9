// Little calculator: commands are digits, +, C (clear), P (print)
GET "LIBHDR"

LET START() BE
$( LET ACC, RIGHT, CH = 0, ?, ?
   $( CH := RDCH()
      SWITCHON CH INTO
      $( CASE ENDSTREAMCH:
            FINISH
         CASE '0': CASE '1': CASE '2': CASE '3': CASE '4':
         CASE '5': CASE '6': CASE '7': CASE '8': CASE '9':
            RIGHT := CH - '0'
            ENDCASE
         CASE 'C':
            ACC := 0
         CASE '+':
            ACC := ACC + RIGHT
            ENDCASE
         CASE '-':
            ACC := ACC - RIGHT
            ENDCASE
         CASE 'P':
            WRITEN(ACC)
            NEWLINE()
         DEFAULT:
      $)
   $) REPEAT
$)
