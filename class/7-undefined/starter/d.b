GET "LIBHDR"

// The place of a name in a list, or 0: 3 0.
// A list is 0, or a pair: a letter, and the rest of the list.
LET PLACE(LIST, LETTER) = VALOF
$( LET N = 1
   UNTIL LIST!0 = LETTER DO
   $( LIST := LIST!1
      N := N + 1
   $)
   RESULTIS N
$)

LET START() BE
$( LET A, B, C = VEC 1, VEC 1, VEC 1
   A!0, A!1 := 'p', B
   B!0, B!1 := 'q', C
   C!0, C!1 := 'r', 0
   WRITEN(PLACE(A, 'r'))
   WRCH('*S')
   WRITEN(PLACE(A, 'x'))
$)
