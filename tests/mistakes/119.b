GET "LIBHDR"

LET ROMAN(N) BE
$( LET VALUE = TABLE 1000, 500, 100, 50, 10, 5, 1
   LET LETTER = "MDCLXVI"
   LET I = 0
   UNTIL N = 0 DO
   $( WHILE N > VALUE!I DO
      $( WRCH(LETTER%(I + 1))
         N := N - VALUE!I
      $)
      I := (I + 1) REM 7
   $)
   NEWLINE()
$)

LET START() BE
$( ROMAN(1965)
   ROMAN(60)
   ROMAN(1967)
   ROMAN(1980)
$)
