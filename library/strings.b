// strings.b: strings and vectors of their bytes. A string of n bytes takes the words 0 to n / 4; the places of the last word
// after its last byte are zeros.
GLOBAL $( PACKSTRING:915; UNPACKSTRING:916; COPYSTRING:917; CONCAT:918; APPEND:919 $)

// PACKSTRING(V, S) makes the string S of the bytes V!1 to V!(V!0), 255 at most, and gives the number of its last word. S may be V.
LET PACKSTRING(V, S) = VALOF
$( LET N = V!0 < 0 -> 0, V!0 > 255 -> 255, V!0
   S%0 := N
   FOR I = 1 TO N DO S%I := V!I
   PAD(S)
   RESULTIS N / 4
$)

// UNPACKSTRING(S, V) sets V!0 to the length of the string S, and V!1, V!2, .. to its bytes. V may be S.
AND UNPACKSTRING(S, V) BE FOR I = S%0 TO 0 BY -1 DO V!I := S%I

// COPYSTRING(S, T) makes T the same string as S.
AND COPYSTRING(S, T) BE
$( FOR I = 0 TO S%0 DO T%I := S%I
   PAD(T)
$)

// APPEND(S, T) puts the bytes of the string T after those of S. What would make S longer than 255 bytes is left out.
AND APPEND(S, T) BE
$( LET M, N = S%0, T%0
   IF M + N > 255 DO N := 255 - M
   FOR I = 1 TO N DO S%(M + I) := T%I
   S%0 := M + N
   PAD(S)
$)

// CONCAT(S, T, R) makes the string R of the bytes of S and then those of T, 255 at most, and gives R. R may be S or T.
AND CONCAT(S, T, R) = VALOF
$( LET SECOND = VEC 63
   COPYSTRING(T, SECOND)
   COPYSTRING(S, R)
   APPEND(R, SECOND)
   RESULTIS R
$)

// The rest of the last word of S becomes zeros.
AND PAD(S) BE FOR I = S%0 + 1 TO S%0 | 3 DO S%I := 0
.
