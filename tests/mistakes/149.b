GET "LIBHDR"

LET TRAILING(N) = VALOF
$( LET COUNT = 0
   UNTIL N & 1 = 0 DO
   $( COUNT := COUNT + 1
      N := N >> 1
   $)
   RESULTIS COUNT
$)

LET BINARY(N, PLACES) BE
   FOR I = PLACES-1 TO 0 BY -1 DO
      WRCH(((N >> I) & 1) + '0')

LET START() BE
   FOR I = 0 TO 15 DO
   $( WRITED(I, 3)
      WRITES("  ")
      BINARY(I, 4)
      WRITES("  ONES AT THE RIGHT: ")
      WRITEN(TRAILING(I))
      NEWLINE()
   $)
