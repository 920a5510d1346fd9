// characters.b: letters without regard to their case, the order of strings, and the number that a string says.
GLOBAL $( CAPITALCH:910; COMPCH:911; COMPSTRING:912; STR2NUMB:913 $)

// CAPITALCH(C) is the capital of a letter from a to z, and C otherwise. A program may declare CAPCH:910 and call it CAPCH.
LET CAPITALCH(C) = 'a' <= C <= 'z' -> C - 'a' + 'A', C

// COMPCH(A, B) is below 0, 0 or above 0 as A is before B, the same or after it, with the case of letters ignored.
AND COMPCH(A, B) = CAPITALCH(A) - CAPITALCH(B)

// COMPSTRING(S, T) is below 0, 0 or above 0 as the string S is before T, the same or after it, with the case of letters
// ignored. A string that begins another is before it.
AND COMPSTRING(S, T) = VALOF
$( LET M, N = S%0, T%0
   FOR I = 1 TO M < N -> M, N DO
   $( LET ORDER = COMPCH(S%I, T%I)
      UNLESS ORDER = 0 DO RESULTIS ORDER
   $)
   RESULTIS M < N -> -1, M > N -> 1, 0
$)

// STR2NUMB(S) is the number of all digits in the string S, below 0 if S begins with a minus.
AND STR2NUMB(S) = VALOF
$( LET N = 0
   FOR I = 1 TO S%0 IF '0' <= S%I <= '9' DO N := N * 10 + S%I - '0'
   IF S%0 > 0 IF S%1 = '-' RESULTIS -N
   RESULTIS N
$)
.
