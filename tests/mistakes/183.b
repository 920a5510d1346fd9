GET "LIBHDR"

LET DIGIT() = VALOF
$( LET C = RDCH()
   WHILE C = '*S' | C = '*N' DO C := RDCH()
   RESULTIS C = ENDSTREAMCH -> -1, C - '0'
$)

LET CALC(A, OP, B) BE
$( LET R = 0
   SWITCHON OP INTO
   $( CASE '+': R := A + B; ENDCASE
      CASE '-': R := A - B; ENDCASE
      CASE '**': R := A * B
      CASE '/': R := A / B; ENDCASE
      DEFAULT: WRITES("?*N"); RETURN
   $)
   WRITES("= ")
   WRITEN(R)
   NEWLINE()
$)

LET START() BE
$( LET A = DIGIT()
   WHILE A >= 0 DO
   $( LET OP = RDCH()
      LET B = DIGIT()
      CALC(A, OP, B)
      A := DIGIT()
   $)
$)
