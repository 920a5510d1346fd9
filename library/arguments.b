// arguments.b: the items of a line, arguments by keywords, and the flags of a task. It needs input.b and characters.b.
GET "LIBHDR"
GLOBAL $( READCH:900; UNRDCH:901; COMPSTRING:912; TESTFLAGS:939; SPLIT:941; RDITEM:942; RDARGS:943; FINDARG:944 $)

MANIFEST $( NOTHING = 0; ITEM = 1; QUOTED = 2; BAD = -1 $)

// RDITEM(V, K) reads an item of the input to the string V, which has the words 0 to K: bytes up to a blank, `=`, `;` or the end of the
// line, or those between two quotes. It gives 1 for an item, 2 for one in quotes, 0 where the line ends or a `;` is before one, and -1
// where the item is too long or a quote is missing. The byte after an item is not read.
LET RDITEM(V, K) = VALOF
$( LET C, N, QUOTES = ?, 0, FALSE
   LET LIMIT = K < 0 -> -1, K > 62 -> 255, 4 * K + 3
   IF LIMIT < 0 RESULTIS BAD
   V!0 := 0
   C := READCH() REPEATWHILE C = '*S' | C = '*T' | C = '*C' | C = '='
   IF C = '"' DO
   $( QUOTES := TRUE
      C := READCH()
   $)
   UNTIL ENDS(C, QUOTES) DO
   $( N := N + 1
      IF N > LIMIT RESULTIS BAD
      IF (N & 3) = 0 DO V!(N >> 2) := 0
      V%N := C
      C := READCH()
   $)
   UNLESS QUOTES & C = '"' DO UNRDCH()
   V%0 := N
   IF QUOTES RESULTIS C = '"' -> QUOTED, BAD
   RESULTIS N = 0 -> NOTHING, ITEM
$)

AND ENDS(C, QUOTES) = C = '*N' | C = ENDSTREAMCH -> TRUE,
   QUOTES -> C = '"', C = '*S' | C = '*T' | C = '*C' | C = ';' | C = '='

// SPLIT(PREFIX, C, S, P) copies the bytes of the string S from byte P on, up to the byte C, to the string PREFIX. It gives the place
// after C, or 0 where C is not found.
AND SPLIT(PREFIX, C, S, P) = VALOF
$( LET N = 0
   IF P < 1 DO P := 1
   PREFIX%0 := 0
   WHILE P <= S%0 DO
   $( IF S%P = C DO
      $( PREFIX%0 := N
         RESULTIS P + 1
      $)
      N, P := N + 1, P + 1
      PREFIX%N := S%(P - 1)
   $)
   PREFIX%0 := N
   RESULTIS 0
$)

// FINDARG(KEYS, S) is the number of the key S in KEYS, from 0 on, or -1. Keys have a comma between two, and `=` between two names of
// one.
AND FINDARG(KEYS, S) = VALOF
$( LET I, N, P, NAME = 0, 0, 1, VEC 63
   WHILE P <= KEYS%0 DO
   $( LET C = KEYS%P
      P := P + 1
      TEST C = '=' | C = '/' | C = ',' DO
      $( NAME%0 := N
         IF N > 0 & COMPSTRING(NAME, S) = 0 RESULTIS I
         N := 0
         // the letters after a `/` are no name
         IF C = '/' DO WHILE P <= KEYS%0 & KEYS%P ~= ',' & KEYS%P ~= '=' DO P := P + 1
         IF C = ',' DO I := I + 1
      $)
      OR
      $( N := N + 1
         NAME%N := C
      $)
   $)
   NAME%0 := N
   RESULTIS N > 0 & COMPSTRING(NAME, S) = 0 -> I, -1
$)

// Whether key N of KEYS has the letter C after a `/`.
AND HASLETTER(KEYS, N, C) = VALOF
$( LET I, P = 0, 1
   WHILE P <= KEYS%0 DO
   $( IF KEYS%P = ',' DO I := I + 1
      IF I = N & KEYS%P = '/' & P < KEYS%0 DO IF CAPITAL(KEYS%(P + 1)) = C RESULTIS TRUE
      P := P + 1
   $)
   RESULTIS FALSE
$)

AND CAPITAL(C) = 'a' <= C <= 'z' -> C - 'a' + 'A', C

// RDARGS(KEYS, V, K) reads the rest of the line as arguments for KEYS, such as "FROM/A,TO/K,N/S": /A is for one that has to be there, /K
// for one that has its name before it, /S for a name alone. V!0, V!1, .. become the strings in the order of the keys, -1 for a name
// alone, and 0 for what is not there. The strings are in V too, which has the words 0 to K. The result is 0 where the line does not
// fit, and else the address of the first word of V after the strings.
AND RDARGS(KEYS, V, K) = VALOF
$( LET COUNT, NEXT, GOOD = 1, ?, TRUE
   FOR P = 1 TO KEYS%0 IF KEYS%P = ',' DO COUNT := COUNT + 1
   GOOD := COUNT <= K
   IF GOOD DO FOR I = 0 TO COUNT - 1 DO V!I := 0
   NEXT := COUNT
   WHILE GOOD DO
   $( LET KIND, KEY = RDITEM(V + NEXT, K - NEXT), -1
      IF KIND = NOTHING BREAK
      GOOD := KIND ~= BAD
      IF KIND = ITEM DO KEY := FINDARG(KEYS, V + NEXT)
      IF GOOD TEST KEY >= 0 & HASLETTER(KEYS, KEY, 'S') DO V!KEY := -1
      OR
      $( TEST KEY >= 0 DO
         $( KIND := RDITEM(V + NEXT, K - NEXT)
            GOOD := KIND = ITEM | KIND = QUOTED
         $)
         OR KEY := FREE(KEYS, V, COUNT)
         IF KEY < 0 DO GOOD := FALSE
         IF GOOD DO
         $( V!KEY := V + NEXT
            NEXT := NEXT + (V!KEY)%0 / BYTESPERWORD + 1
            // RDITEM refuses where no word is left
         $)
      $)
   $)
   // the rest of the line
   $( LET C = READCH()
      IF C = '*N' | C = ';' | C = ENDSTREAMCH BREAK
   $) REPEAT
   IF GOOD DO FOR I = 0 TO COUNT - 1 IF V!I = 0 & HASLETTER(KEYS, I, 'A') DO GOOD := FALSE
   RESULTIS GOOD -> V + NEXT, 0
$)

// The first key that may be given without its name, and is not given yet; or -1.
AND FREE(KEYS, V, COUNT) = VALOF
$( FOR I = 0 TO COUNT - 1 IF V!I = 0 UNLESS HASLETTER(KEYS, I, 'K') | HASLETTER(KEYS, I, 'S') RESULTIS I
   RESULTIS -1
$)
// TESTFLAGS(F) is FALSE: nothing interrupts a program here.
AND TESTFLAGS(F) = FALSE
.
