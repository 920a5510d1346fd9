GET "LIBHDR2"
LET START() BE
$( LET N = 27
   LET STEPS = 0
   UNTIL N = 1 DO
   $( TEST N REM 2 = 0
      THEN N := N / 2
      ELSE N := 3 * N + 1
      STEPS := STEPS + 1
   $)
   WRITEF("%N steps*N", STEPS)
   FOR I = 10 TO 1 BY -3 DO WRITEF("%N ", I)
   NEWLINE()
   $( STEPS := STEPS / 2
      IF STEPS REM 2 = 1 LOOP
      IF 0 < STEPS < 10 BREAK
      WRITEF("%N ", STEPS)
   $) REPEAT
   NEWLINE()
$)
