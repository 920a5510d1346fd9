// count vowels - translated from my C version
GET "LIBHDR2"

LET ISVOWEL(C) = VALOF
SWITCHON C INTO
$( CASE 'A': CASE 'E': CASE 'I': CASE 'O': CASE 'U':
   CASE 'a': CASE 'e': CASE 'i': CASE 'o': CASE 'u':
      RESULTIS TRUE
   DEFAULT:
      RESULTIS FALSE
$)

LET VOWELS(S) = VALOF
$( LET I, N = 1, 0
   WHILE S%I ~= 0 DO
   $( IF ISVOWEL(S%I) DO N := N + 1
      I := I + 1
   $)
   RESULTIS N
$)

LET REPORT(S) BE
   WRITEF("%S has %N vowels*N", S, VOWELS(S))

LET START() BE
$( REPORT("banana")
   REPORT("Cambridge")
   REPORT("programming")
$)
