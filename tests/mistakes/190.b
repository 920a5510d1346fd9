Get "LIBHDR"
Global $( S:200; SP:201 $)

Let Push(X) Be
$( S!SP := X
   SP := SP + 1
$)

Let Pop() = Valof
$( Let X = S!SP
   SP := SP - 1
   Resultis X
$)

Let Start() Be
$( Let V = Vec 30
   Let C = ?
   S, SP := V, 0
   C := RdCh()
   Until C = EndStreamCh Do
   $( If '0' <= C <= '9' Do Push(C - '0')
      If C = '+' Do $( Let B = Pop(); Push(Pop() + B) $)
      If C = '**' Do $( Let B = Pop(); Push(Pop() * B) $)
      If C = '*N' Do $( WriteN(Pop()); NewLine() $)
      C := RdCh()
   $)
$)
