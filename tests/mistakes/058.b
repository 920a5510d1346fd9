GET "LIBHDR"

// merge of two ordered vectors, each ended by a large number
LET MERGE(PA, PB, PC, N) BE
$( FOR I = 1 TO N DO
   $( TEST !PA <= !PB & PA <= PB
      THEN $( !PC := !PA; PA := PA + 1 $)
      ELSE $( !PC := !PB; PB := PB + 1 $)
      PC := PC + 1
   $)
$)

LET START() BE
$( LET A = TABLE 5, 9, 14, 30, 9999
   LET B = TABLE 2, 4, 15, 9999
   LET C = VEC 6
   MERGE(A, B, C, 7)
   FOR I = 0 TO 6 DO
   $( WRITEN(C!I)
      WRCH(I = 6 -> '*N', ',')
   $)
$)
