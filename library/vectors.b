// vectors.b: words that are copied, filled and sorted, and a vector for a procedure.
GET "LIBHDR"
GLOBAL $( APTOVEC:923; MOVE:925; MOVEBACK:926; FILL:927; QUICKSORT:928 $)

// MOVE(A, B, N) copies the words A!0 to A!(N-1) to B!0 to B!(N-1), the first one first; none where N is below 1. If the two overlap, B is before A.
LET MOVE(A, B, N) BE IF N > 0 DO FOR I = 0 TO N - 1 DO B!I := A!I

// MOVEBACK(A, B, N) copies the same words, the last one first. If the two overlap, B is after A.
AND MOVEBACK(A, B, N) BE IF N > 0 DO FOR I = N - 1 TO 0 BY -1 DO B!I := A!I

// FILL(V, N, W) sets the words V!0 to V!(N-1) to W.
AND FILL(V, N, W) BE IF N > 0 DO FOR I = 0 TO N - 1 DO V!I := W

// QUICKSORT(V, L, R, BEFORE) sorts the words V!L to V!R. BEFORE(X, Y) is true if X has to be before Y.
AND QUICKSORT(V, L, R, BEFORE) BE WHILE L < R DO
$( LET PIVOT, I, J = V!((L + R) >> 1), L, R
   $( LET X = ?
      WHILE I < R & BEFORE(V!I, PIVOT) DO I := I + 1
      WHILE J > L & BEFORE(PIVOT, V!J) DO J := J - 1
      IF I > J BREAK
      X := V!I
      V!I := V!J
      V!J := X
      I, J := I + 1, J - 1
   $) REPEATUNTIL I > J
   // the smaller part is sorted by a call, so that calls are nested 15 deep at most in 32,768 words
   TEST J - L < R - I DO
   $( QUICKSORT(V, L, J, BEFORE)
      L := I
   $)
   OR
   $( QUICKSORT(V, I, R, BEFORE)
      R := J
   $)
$)
// APTOVEC(F, K) calls F(V, K) with a vector V of the words 0 to K, and gives the result. Where K is above 32767 the run ends with 20.
AND APTOVEC(F, K) = VALOF
$( IF K <= 100 RESULTIS SMALL(F, K)
   IF K <= 2000 RESULTIS MIDDLE(F, K)
   IF K <= 32767 RESULTIS LARGE(F, K)
   WRITES("APTOVEC: no room*N")
   STOP(20)
$)

AND SMALL(F, K) = VALOF
$( LET V = VEC 100
   RESULTIS F(V, K)
$)

AND MIDDLE(F, K) = VALOF
$( LET V = VEC 2000
   RESULTIS F(V, K)
$)

AND LARGE(F, K) = VALOF
$( LET V = VEC 32767
   RESULTIS F(V, K)
$)
.
