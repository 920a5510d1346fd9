GET "LIBHDR2"
GLOBAL $( TOTAL:200; COUNT:201 $)

LET READNUM() = VALOF
$( LET N = 0
   LET C = RDCH()
   WHILE C = '*S' | C = '*N' DO C := RDCH()
   IF C = ENDSTREAMCH RESULTIS -1
   WHILE '0' <= C <= '9' DO $( N := N * 10 + C - '0'; C := RDCH() $)
   RESULTIS N
$)

LET MEAN() = TOTAL / COUNT

LET START() BE
$( LET X = 0
   TOTAL, COUNT := 0, 0
   X := READNUM()
   UNTIL X < 0 DO
   $( IF X <= 100 DO
      $( TOTAL := TOTAL + X
         COUNT := COUNT + 1
      $)
      X := READNUM()
   $)
   WRITEF("MARKS %N  MEAN %N*N", COUNT, MEAN())
$)
