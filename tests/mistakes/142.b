GET "LIBHDR"

LET SQUEEZE(S) BE
$( LET I, N = 1, GETBYTE(S, 0)
   WHILE I <= N DO
   $( LET C = GETBYTE(S, I)
      IF C NE '*S' DO
      $( WRCH(C)
         I := I + 1
      $)
   $)
   NEWLINE()
$)

LET START() BE
$( SQUEEZE("NOBLANKS")
   SQUEEZE("A MAN A PLAN A CANAL")
   SQUEEZE("PANAMA")
$)
