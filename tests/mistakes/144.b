GET "LIBHDR"
GLOBAL $( INIT:200; OUTCH:201; WIDTH:202; COLUMN:203 $)

LET INIT() BE
$( WIDTH := 20
   COLUMN := 0
$)

LET OUTCH(C) BE
$( IF C = '*S' & COLUMN >= WIDTH DO C := '*N'
   TEST C = '*N'
   THEN COLUMN := 0
   OR COLUMN := COLUMN + 1
   WRCH(C)
$)

LET START() BE
$( LET C = RDCH()
   UNTIL C = ENDSTREAMCH DO
   $( TEST C = '*N'
      THEN OUTCH('*S')
      OR OUTCH(C)
      C := RDCH()
   $)
   NEWLINE()
$)
