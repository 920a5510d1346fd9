GET "LIBHDR"
GLOBAL $( STK:100; TOP:101; ENDCH:102 $)

LET PUSH(X) BE $( TOP := TOP + 1; STK!TOP := X $)
LET POP() = VALOF $( TOP := TOP - 1; RESULTIS STK!(TOP + 1) $)

LET CHECKLINE() = VALOF
$( LET CH, OK = ?, TRUE
   TOP := -1
   $( CH := RDCH()
      ENDCH := CH
      IF CH = '*N' | CH = ENDSTREAMCH RESULTIS OK & TOP < 0
      OK := OK & VALOF
      $( SWITCHON CH INTO
         $( CASE '(': CASE '[': PUSH(CH); ENDCASE
            CASE ')': IF POP() ~= '(' RESULTIS FALSE; ENDCASE
            CASE ']': IF POP() ~= '[' RESULTIS FALSE; ENDCASE
         $)
         RESULTIS TRUE
      $)
   $) REPEAT
$)

LET START() BE
$( LET V = VEC 30
   LET N = 0
   STK := V
   $( LET R = CHECKLINE()
      IF ENDCH = ENDSTREAMCH BREAK
      N := N + 1
      WRITED(N, 3)
      WRITES(R -> " well formed*N", " not well formed*N")
   $) REPEAT
$)
