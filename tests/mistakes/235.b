// counts quoted strings with states that are procedures
GET "LIBHDR2"
GLOBAL $( OUTSIDE:200; INSTRING:201; AFTERSTAR:202 $)
STATIC $( STRINGS = 0; LETTERS = 0 $)

LET OUTSIDE(CH) = CH = '*"' -> INSTRING, OUTSIDE

LET INSTRING(CH) = VALOF
$( SWITCHON CH INTO
   $( CASE '*"':
         STRINGS := STRINGS + 1
         RESULTIS OUTSIDE
      CASE '**':
         RESULTIS AFTERSTAR
      DEFAULT:
         LETTERS := LETTERS + 1
   $)
$)

LET AFTERSTAR(CH) = VALOF
$( LETTERS := LETTERS + 1
   RESULTIS INSTRING
$)

LET START() BE
$( LET STATE = OUTSIDE
   LET CH = RDCH()
   UNTIL CH = ENDSTREAMCH DO
   $( STATE := STATE(CH)
      CH := RDCH()
   $)
   WRITEF("%N strings, %N characters*N", STRINGS, LETTERS)
$)
