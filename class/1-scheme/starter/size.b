GET "LIBHDR"

LET SIZE(N) = VALOF
$( LET D = 0
   WHILE N > 0 DO
   $( D := D + 1
      N := N / 10
   $)
   RESULTIS D
$)

LET START() BE WRITEN(SIZE(1980))
