Get "LIBHDR"

Let ReadLine(Buf) = Valof
$( Let N, C = 0, RdCh()
   If C = EndStreamCh Resultis -1
   Until C = '*N' | C = EndStreamCh Do
   $( N := N + 1
      PutByte(Buf, N, C)
      C := RdCh()
   $)
   PutByte(Buf, 0, N)
   Resultis N
$)

Let Start() Be
$( Let Best, Most = "", 0
   $( Let Line = Vec 30
      Let N = ReadLine(Line)
      If N < 0 Break
      If N > Most Do
      $( Most := N
         Best := Line
      $)
   $) Repeat
   Writes("Longest line: ")
   Writes(Best)
   Newline()
$)
