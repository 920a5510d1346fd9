// modernise: reads a source in the BCPL of other compilers, and writes it for this one.
//
//     bcpl run tools/modernise.b < OLD > NEW
//
// The first pass reads the whole source as tokens, and collects what each section declares. The second writes the source: what has
// another spelling here is spelt so, and what can't be turned gets a comment at the end of its line, `// ??` and the reason. All
// else is copied as it is. The last lines say how much was turned and marked, and which files of library/ the program needs.
// docs/FROM-RICHARDS.md has the tables. A source above about 50,000 bytes needs more words: bcpl run -s 4194304.

GET "LIBHDR2"

MANIFEST
$( // a token: its kind, its first byte and the one after its last, the first token of the section with the same spelling,
   // the bracket that it is matched with, the next of a list, and its value
   KIND = 0; FROM = 1; UPTO = 2; FIRST = 3; MATE = 4; LINKED = 5; FLAGS = 6; VALUE = 7
   // what is written for it: a format in its place with a value, formats before and after it with theirs, closing parentheses,
   // and why its line is marked
   NEW = 8; NEWVALUE = 9; BEFORE = 10; AFTER = 11; AFTERVALUE = 12; CLOSES = 13; REASON = 14; SUFFIX = 15
   FIELDS = 16
   // flags of a token
   FRESH = 1             // the first one of its line
   INDECLARATION = 2     // in the brackets of GLOBAL, MANIFEST, STATIC or EXTERNAL
   COMMAND = 4           // begins a command
   PROLOGUE = 8          // the body of START: statics are set before it
   INSERT = 16           // after it the section declares what it takes from the library
   OPERATES = 32         // the := of +:= and its kin: VALUE is the first token of the destination
   SETLATER = 64         // the = of LET N = E REPEAT..: MATE is the name
   ASCOMMENT = 128       // becomes a comment, with the next token
   SUCCESSOR = 512       // an item of MANIFEST, one more than that at MATE
   HEADER = 256          // before it GET "LIBHDR2" is inserted
   // flags of a name, at its first token
   DECLARED = 1024
   DEFINED = 2048        // by LET or AND, with formals
   CONSTANT = 4096       // in MANIFEST; VALUE is its value, if it is KNOWN
   KNOWN = 8192
   SHARED = 16384        // in GLOBAL, at its item too; NEWVALUE of the item is its number
   LABEL = 32768
   SET = 65536           // by :=
   WANTED = 131072       // from the library
   RENAMED = 262144      // VALUE of its token says how: see SPELT
   VARIABLE = 524288     // a variable, a formal or a static
   // a flag of a token
   TIGHT = 1048576       // without the blanks before it
   JUMPS = 2097152       // the end of a GOTO of a value: AFTERVALUE is the GOTO
   OUTER = 8388608       // a LET or AND outside all brackets
   FOREIGN = 16777216    // an item of EXTERNAL
   // and of a name
   CALLED = 33554432     // with arguments
   USED = 67108864       // outside its item of GLOBAL
   TWICE = 134217728     // a constant in two declarations
   VALUED = 4194304      // a label that is used as a value; VALUE is its number

   // kinds of tokens
   ATEND = 0; NAME = 1; NUMBER = 2; STRING = 3; CHARACTER = 4; OPEN = 5; CLOSE = 6; LEFT = 7; RIGHT = 8; SEMICOLON = 9; COMMA = 10
   COLON = 11; ASSIGN = 12; ARROW = 13; EQUAL = 14; RELATION = 15; PLUS = 16; MINUS = 17; STAR = 18; SLASH = 19; BANG = 20
   PERCENT = 21; AT = 22; AMPERSAND = 23; BAR = 24; TILDE = 25; SHIFTLEFT = 26; SHIFTRIGHT = 27; QUERY = 28; DOT = 29; DOUBLECOLON = 30
   SEQUENCE = 31; OTHER = 32; DROPPED = 33
   S.LET = 40; S.AND = 41; S.BE = 42; S.VEC = 43; S.TABLE = 44; S.VALOF = 45; S.GLOBAL = 46; S.MANIFEST = 47; S.STATIC = 48; S.EXTERNAL = 49
   S.GET = 50; S.SECTION = 51; S.NEEDS = 52; S.FOR = 53; S.TO = 54; S.BY = 55; S.DO = 56; S.THEN = 57; S.OR = 58; S.ELSE = 59; S.IF = 60
   S.TEST = 62; S.UNTIL = 64; S.SWITCHON = 65; S.INTO = 66; S.CASE = 67; S.DEFAULT = 68; S.GOTO = 69; S.RESULTIS = 70; S.BREAK = 71; S.FINISH = 75
   S.REPEAT = 76; S.REPEATWHILE = 77; S.REPEATUNTIL = 78; S.TRUE = 79; S.FALSE = 80
   S.EQ = 81; S.NE = 82; S.EQV = 83; S.NEQV = 84; S.NOT = 85; S.REM = 86; S.LS = 87; S.GE = 92; S.LSHIFT = 93; S.RSHIFT = 94; S.LOGAND = 95
   S.LOGOR = 96; S.MOD = 97; S.XOR = 98; S.LV = 99; S.RV = 100; S.NIL = 101; S.IFSO = 102; S.IFNOT = 103; S.ABS = 104; S.SLCT = 105; S.OF = 106
   S.MATCH = 107; S.EVERY = 108; S.FLT = 109; S.FIX = 111; S.STRUCTURE = 112; S.SELECTON = 113; S.ABORT = 117

   GETS = 1; PUTS = 2
   BUCKETS = 1024; NESTING = 1000; PIECE = 2048; FIRSTGLOBAL = 100; HELD = 100
$)

STATIC
$( CHUNKS = 0; BYTES = 0          // the text: vectors of 131,072 bytes, and the number of bytes
   PIECES = 0; TOKENS = 0         // the tokens: vectors of PIECE tokens, and their number
   P = 0; FOUND = 0               // the byte that is read next, and the byte after the token that was found
   NEWLINES = FALSE               // a line ended before the token
   STORING = FALSE
   ALTO = FALSE                   // [ and ] are section brackets, $C a character, = an assignment
   TAGS = 0; TAGCOUNT = 0         // the tags that $$TAG set
   WORD = 0; TABLES = 0
   BUCKET = 0; OPENED = 0; STATES = 0    // STATES of open sections: twice the blocks that end with one, and 1 after a command
   LOW = 0; HIGH = 0; SECTIONAT = 0              // the tokens of a section are LOW to HIGH - 1
   HASFILES = FALSE; STARTBODY = 0; STARTVALUE = FALSE
   SETNAMES = 0; SETNUMBERS = 0   // by hash, whether a name is set in a section, and whether a global is
   OTHERNUMBERS = FALSE           // whether 801 to 811 are taken
   OLDHEADER = FALSE              // whether GLOBAL gives a routine of the library another number
   POINT = 0; UNSURE = FALSE; TABLECOUNT = 0; LABELCOUNT = 0
   SURE = FALSE                   // the constant expression has a value
   HEAD = 0                       // the statics that START sets
   // what the whole source uses
   USESINPUT = FALSE; USESTERMINATOR = FALSE; USESHEAP = FALSE; OWNHEAP = FALSE;
   USESRDCH = FALSE; SHOWSREADN = FALSE; USESSTREAMS = FALSE; SETSWRCH = FALSE; USESWRITEF = FALSE
   OTHERDIRECTIVES = FALSE; USES = 0
   // the line that is written
   WHY = 0; MARKED = FALSE; WRITTEN = FALSE; BLANKS = FALSE
   HOLDS = 0; HOLDCOUNT = 0       // comments for the end of the line: pairs of bytes
   TURNED = 0; MARKS = 0; OLDFROM = 0; OLDUPTO = 0
$)

LET START() BE
$( LET C, T, W, K = VEC 255, VEC 2047, VEC 63, VEC 40
   LET B, O, H, U, S, N, A = VEC BUCKETS, VEC NESTING, VEC 2 * HELD, VEC 20, VEC 1024, VEC 256, VEC NESTING
   CHUNKS, PIECES, WORD, TAGS, BUCKET, OPENED, HOLDS, USES := C, T, W, K, B, O, H, U
   FOR I = 0 TO 20 DO USES!I := FALSE
   SETNAMES, SETNUMBERS, STATES := S, N, A
   FOR I = 0 TO 1024 DO SETNAMES!I := 0
   FOR I = 0 TO 256 DO SETNUMBERS!I := 0
   READCHUNK(0)
$)

// The text is read into vectors that live as long as the call that made them.
AND READCHUNK(N) BE
$( LET V, I, C = VEC 32767, 0, 0
   CHUNKS!N := V
   WHILE I < 131072 DO
   $( C := RDCH()
      IF C = ENDSTREAMCH BREAK
      V%I := C
      I := I + 1
   $)
   BYTES := BYTES + I
   TEST C = ENDSTREAMCH DO
   $( ALTO := LOOKSALTO()
      STORING, TOKENS := FALSE, 0
      TOKENISE()
      MAKEPIECE(0, TOKENS / PIECE)
   $)
   OR READCHUNK(N + 1)
$)

AND MAKEPIECE(N, LAST) BE
$( LET V = VEC PIECE * FIELDS - 1
   PIECES!N := V
   TEST N < LAST DO MAKEPIECE(N + 1, LAST)
   OR
   $( STORING, TOKENS := TRUE, 0
      TOKENISE()
      COLLECT()
      WRITEALL()
   $)
$)

// The byte at I, and a line feed after the end.
AND BYTE(I) = 0 <= I < BYTES -> (CHUNKS!(I >> 17))%(I & #X1FFFF), '*N'

// The token I.
AND T(I) = PIECES!(I / PIECE) + (I REM PIECE) * FIELDS

AND K(I) = KIND!T(I)

AND FLAG(I, F) BE FLAGS!T(I) := FLAGS!T(I) | F

AND HAS(I, F) = (FLAGS!T(I) & F) ~= 0

// The same of the name of token I.
AND FLAGNAME(I, F) BE FLAG(FIRST!T(I), F)

AND NAMEHAS(I, F) = HAS(FIRST!T(I), F)

// The line of token I gets a mark with this reason. Only the first reason of a line is written.
AND MARK(I, TEXT) BE IF REASON!T(I) = 0 DO REASON!T(I) := TEXT

// Token I is written by this format, with a value.
AND TURN(I, FORMAT, N) BE
$( NEW!T(I), NEWVALUE!T(I) := FORMAT, N
   TURNED := TURNED + 1
$)

AND ISLETTER(C) = 'A' <= C <= 'Z' | 'a' <= C <= 'z'

AND ISDIGIT(C) = '0' <= C <= '9'

AND ISINNAME(C) = ISLETTER(C) | ISDIGIT(C) | C = '.' | C = '_'

AND UPPER(C) = 'a' <= C <= 'z' -> C - 'a' + 'A', C = '_' -> '.', C

AND ISBLANK(C) = C = '*S' | C = '*T' | C = '*C' | C = '*P' | C = 26 | C = 11

// ---- tokens ----

AND ADD(WHAT, UNTO) BE
$( IF STORING DO
   $( LET V = T(TOKENS)
      FOR I = 0 TO FIELDS - 1 DO V!I := 0
      KIND!V, FROM!V, UPTO!V := WHAT, P, UNTO
      IF NEWLINES DO FLAGS!V := FRESH
   $)
   TOKENS := TOKENS + 1
   P := UNTO
$)

AND TOKENISE() BE
$( P, TAGCOUNT, NEWLINES := BYTE(0) = 239 -> 3, 0, 0, TRUE
   $( P := PASTGAP(P)
      IF P >= BYTES BREAK
      ADD(TOKENAT(P), FOUND)
      NEWLINES := FALSE
   $) REPEAT
   NEWLINES := TRUE
   P := BYTES
   ADD(ATEND, BYTES)
$)

// The byte after the blanks and comments from Q on.
AND PASTGAP(Q) = VALOF
$( LET C, D = BYTE(Q), BYTE(Q + 1)
   IF Q >= BYTES RESULTIS BYTES
   TEST C = '*N' DO NEWLINES, Q := TRUE, Q + 1
   OR TEST ISBLANK(C) DO Q := Q + 1
   OR TEST (C = '/' & D = '/') | (C = '|' & D = '|') DO Q := LINEEND(Q)
   OR TEST C = '/' & D = '**' DO Q := COMMENTEND(Q)
   OR TEST C = '$' & ~ALTO & (D = '<' | D = '>' | D = '$' | D = '~') & ISLETTER(BYTE(Q + 2)) DO Q := CONDITIONAL(Q)
   OR RESULTIS Q
$) REPEAT

AND LINEEND(Q) = VALOF
$( UNTIL BYTE(Q) = '*N' DO Q := Q + 1
   RESULTIS Q
$)

// The byte after a comment between brackets: comments are nested where their brackets balance, and else they are not.
AND COMMENTEND(Q) = VALOF
$( LET DEPTH, R, SINGLE = 0, Q, 0
   $( TEST BYTE(R) = '/' & BYTE(R + 1) = '**' DO DEPTH, R := DEPTH + 1, R + 2
      OR TEST BYTE(R) = '**' & BYTE(R + 1) = '/' DO
      $( DEPTH, R := DEPTH - 1, R + 2
         IF SINGLE = 0 DO SINGLE := R
      $)
      OR R := R + 1
   $) REPEATUNTIL DEPTH = 0 | R >= BYTES
   RESULTIS DEPTH = 0 -> R, SINGLE = 0 -> BYTES, SINGLE
$)

// $<TAG begins a part that is compiled if TAG is set, $~TAG one that is compiled if it is not, $>TAG ends it, $$TAG sets it or not.
// The byte after what is left out.
AND CONDITIONAL(Q) = VALOF
$( LET C, E = BYTE(Q + 1), TAGEND(Q + 2)
   IF C = '$' DO
   $( TEST ISSET(Q + 2) DO UNSET(Q + 2) OR IF TAGCOUNT < 40 DO $( TAGS!TAGCOUNT := Q + 2; TAGCOUNT := TAGCOUNT + 1 $)
      RESULTIS E
   $)
   IF C = '>' | ISSET(Q + 2) = (C = '<') RESULTIS E
   FOR R = E TO BYTES IF BYTE(R) = '$' & BYTE(R + 1) = '>' & SAMETAG(R + 2, Q + 2) RESULTIS TAGEND(R + 2)
   RESULTIS BYTES
$)

AND TAGEND(Q) = VALOF
$( WHILE ISINNAME(BYTE(Q)) DO Q := Q + 1
   RESULTIS Q
$)

AND SAMETAG(Q, R) = VALOF
$( LET N = TAGEND(Q) - Q
   UNLESS TAGEND(R) - R = N RESULTIS FALSE
   FOR I = 0 TO N - 1 UNLESS UPPER(BYTE(Q + I)) = UPPER(BYTE(R + I)) RESULTIS FALSE
   RESULTIS TRUE
$)

AND ISSET(Q) = VALOF
$( FOR I = 0 TO TAGCOUNT - 1 IF TAGS!I >= 0 DO IF SAMETAG(TAGS!I, Q) RESULTIS TRUE
   RESULTIS FALSE
$)

AND UNSET(Q) BE FOR I = 0 TO TAGCOUNT - 1 IF TAGS!I >= 0 DO IF SAMETAG(TAGS!I, Q) DO TAGS!I := -1

// Whether [ begins sections: one is after a blank, and no $( is.
AND LOOKSALTO() = VALOF
$( LET Q, SEEN = 0, FALSE
   WHILE Q < BYTES DO
   $( LET C, D = BYTE(Q), BYTE(Q + 1)
      TEST (C = '/' & D = '/') | (C = '|' & D = '|') DO Q := LINEEND(Q)
      OR TEST C = '/' & D = '**' DO Q := COMMENTEND(Q)
      OR TEST C = '"' | C = '*'' DO Q := QUOTEEND(Q)
      OR
      $( IF C = '$' & (D = '(' | D = ')') RESULTIS FALSE
         IF C = '{' RESULTIS FALSE
         IF C = '[' & (Q = 0 | BYTE(Q - 1) <= '*S') DO SEEN := TRUE
         Q := Q + 1
      $)
   $)
   RESULTIS SEEN
$)

// The byte after a string or a character constant. One that its line does not end goes on to a quote in the 255 bytes after it,
// or else to the end of the line.
AND QUOTEEND(Q) = VALOF
$( LET QUOTE, R, OVER = BYTE(Q), Q + 1, 0
   UNTIL R >= BYTES | R > Q + 800 DO
   $( LET C = BYTE(R)
      IF C = QUOTE RESULTIS R + 1
      IF C = '/' & ISMARK(R) RESULTIS OVER = 0 -> R, OVER
      IF C = '*N' DO
      $( IF OVER = 0 DO OVER := R
         IF QUOTE = '*'' | R > Q + 255 RESULTIS OVER
      $)
      TEST C = '**' & BLANKLINE(R + 1) DO
      $( R := LINEEND(R) + 1
         WHILE ISBLANK(BYTE(R)) | (BYTE(R) = '*N' & R < BYTES) DO R := R + 1
         IF BYTE(R) = '**' DO R := R + 1
      $)
      OR R := C = '**' & BYTE(R + 1) ~= '*N' -> R + 2, R + 1
   $)
   RESULTIS OVER = 0 -> R, OVER
$)

// Whether the mark of an earlier pass is at Q.
AND ISMARK(Q) = SAYS(Q, "// ?? ") & (ISLETTER(BYTE(Q + 6)) | BYTE(Q + 6) = '<')

// Whether only blanks, or none, are from Q to the end of the line.
AND BLANKLINE(Q) = VALOF
$( WHILE ISBLANK(BYTE(Q)) DO Q := Q + 1
   RESULTIS BYTE(Q) = '*N'
$)

// Whether the text has a bracket C with the tag at Q.
AND HASTAG(C, Q) = VALOF
$( FOR R = 0 TO BYTES - 1 IF BYTE(R) = C DO IF SAMETAG(R + 1, Q) RESULTIS TRUE
   RESULTIS FALSE
$)

// The kind of the token at Q; FOUND is the byte after it.
AND TOKENAT(Q) = VALOF
$( LET C, D = BYTE(Q), BYTE(Q + 1)
   FOUND := Q + 1
   IF ISLETTER(C) DO
   $( FOUND := TAGEND(Q)
      // a word that is no name, and a dot that ends the section
      IF BYTE(FOUND - 1) = '.' & BLANKLINE(FOUND) DO
      $( LOADWORD(Q, FOUND - 1)
         UNLESS KEYWORD() = NAME DO FOUND := FOUND - 1
      $)
      RESULTIS NAME
   $)
   IF ISDIGIT(C) DO
   $( WHILE ISDIGIT(BYTE(FOUND)) | BYTE(FOUND) = '_' DO FOUND := FOUND + 1
      IF BYTE(FOUND) = '.' & ISDIGIT(BYTE(FOUND + 1)) DO FOUND := TAGEND(FOUND)
      RESULTIS NUMBER
   $)
   SWITCHON C INTO
   $( CASE '"': FOUND := QUOTEEND(Q); RESULTIS STRING
      CASE '*'': FOUND := QUOTEEND(Q); RESULTIS CHARACTER
      CASE '$':
         IF ALTO DO
         $( FOUND := Q + (D = '**' -> 3, 2)
            RESULTIS CHARACTER
         $)
         IF D = '(' | D = ')' DO
         $( FOUND := ISLETTER(BYTE(Q + 2)) | ISDIGIT(BYTE(Q + 2)) -> TAGEND(Q + 2), Q + 2
            RESULTIS D = '(' -> OPEN, CLOSE
         $)
         RESULTIS OTHER
      CASE '{': RESULTIS OPEN
      CASE '}': RESULTIS CLOSE
      CASE '[': CASE ']':
         IF ALTO & ISLETTER(D) & HASTAG(C = '[' -> ']', '[', Q + 1) DO FOUND := TAGEND(Q + 1)
         RESULTIS C = '[' -> (ALTO & BYTE(Q - 1) <= '*S' -> OPEN, LEFT), ALTO -> CLOSE, RIGHT
      CASE '(': RESULTIS LEFT
      CASE ')': RESULTIS RIGHT
      CASE ';': RESULTIS SEMICOLON
      CASE ',': RESULTIS COMMA
      CASE '.': RESULTIS DOT
      CASE '_': RESULTIS ASSIGN
      CASE '=': IF D = '>' DO $( FOUND := Q + 2; RESULTIS OTHER $)
                RESULTIS EQUAL
      CASE '+': RESULTIS PLUS
      CASE '**': RESULTIS STAR
      CASE '!': RESULTIS BANG
      CASE '%': RESULTIS ALTO -> BAR, PERCENT
      CASE '@': RESULTIS AT
      CASE '&': RESULTIS AMPERSAND
      CASE '|': RESULTIS BAR
      CASE '?': RESULTIS QUERY
      CASE ':':
         IF D = '=' DO $( FOUND := Q + 2; RESULTIS ASSIGN $)
         IF D = ':' DO $( FOUND := Q + 2; RESULTIS DOUBLECOLON $)
         RESULTIS COLON
      CASE '-':
         IF D = '>' DO $( FOUND := Q + 2; RESULTIS ARROW $)
         RESULTIS MINUS
      CASE '/':
         IF D = '\' DO $( FOUND := Q + 2; RESULTIS AMPERSAND $)
         RESULTIS SLASH
      CASE '\':
         IF D = '/' DO $( FOUND := Q + 2; RESULTIS BAR $) // and on
      CASE '~':
         IF D = '=' DO $( FOUND := Q + 2; RESULTIS RELATION $)
         RESULTIS TILDE
      CASE '<':
         IF D = '>' DO $( FOUND := Q + 2; RESULTIS SEQUENCE $)
         IF D = '<' DO $( FOUND := Q + 2; RESULTIS SHIFTLEFT $)
         IF D = '=' DO FOUND := Q + 2
         RESULTIS RELATION
      CASE '>':
         IF D = '>' DO $( FOUND := Q + 2; RESULTIS SHIFTRIGHT $)
         IF D = '=' DO FOUND := Q + 2
         RESULTIS RELATION
      CASE '#':
         IF ISDIGIT(D) | ISLETTER(D) DO
         $( FOUND := Q + 2
            WHILE ISDIGIT(BYTE(FOUND)) | 'A' <= UPPER(BYTE(FOUND)) <= 'F' | BYTE(FOUND) = '_' DO FOUND := FOUND + 1
            RESULTIS NUMBER
         $)
   $)
   RESULTIS OTHER
$)

// WORD becomes the bytes from Q to R - 1, in capitals and with dots; at most 255 of them.
AND LOADWORD(Q, R) BE
$( LET N = R - Q > 255 -> 255, R - Q
   FOR I = 1 TO N DO WORD%I := UPPER(BYTE(Q + I - 1))
   WORD%0 := N
$)

AND LOADNAME(I) BE LOADWORD(FROM!T(I), UPTO!T(I))

AND IS(S) = VALOF
$( FOR I = 0 TO S%0 UNLESS WORD%I = S%I RESULTIS FALSE
   RESULTIS TRUE
$)

// The number of WORD in a list of words with a blank after each, from 0 on, or -1.
AND PLACE(S) = VALOF
$( LET I, N = 1, 0
   WHILE I <= S%0 DO
   $( LET J = 1
      WHILE J <= WORD%0 & I <= S%0 DO
      $( UNLESS S%I = WORD%J BREAK
         I, J := I + 1, J + 1
      $)
      IF J > WORD%0 & S%I = '*S' RESULTIS N
      UNTIL S%I = '*S' DO I := I + 1
      I, N := I + 1, N + 1
   $)
   RESULTIS -1
$)

// The kind of WORD: that of a reserved word, or NAME.
AND KEYWORD() = VALOF
$( LET N = PLACE("LET AND BE VEC TABLE VALOF GLOBAL MANIFEST STATIC EXTERNAL GET SECTION NEEDS FOR TO BY DO THEN OR ELSE IF UNLESS TEST WHILE UNTIL ")
   IF N >= 0 RESULTIS S.LET + N
   N := PLACE("SWITCHON INTO CASE DEFAULT GOTO RESULTIS BREAK LOOP ENDCASE RETURN FINISH REPEAT REPEATWHILE REPEATUNTIL TRUE FALSE ")
   IF N >= 0 RESULTIS S.SWITCHON + N
   N := PLACE("EQ NE EQV NEQV NOT REM LS LT GR GT LE GE LSHIFT RSHIFT LOGAND LOGOR MOD XOR LV RV NIL IFSO IFNOT ABS SLCT OF ")
   IF N >= 0 RESULTIS S.EQ + N
   N := PLACE("MATCH EVERY FLT FLOAT FIX STRUCTURE SELECTON COMPILEIF NUMARGS DOCASE ABORT ")
   IF N >= 0 & (N < 5 | ALTO) RESULTIS S.MATCH + N
   RESULTIS NAME
$)

// ---- the first pass: what each section declares, and what is turned ----

AND COLLECT() BE
$( EACHSECTION(EXAMINE)
   EACHSECTION(NEED)
   // a program that calls INITHEAP has a heap of its own
   USESHEAP := USES!11 | (USES!8 & ~OWNHEAP)
   IF USES!11 DO USES!8, USES!4, SETSWRCH := TRUE, TRUE, TRUE
   IF USES!10 | USES!11 DO USES!3 := TRUE
   IF USES!10 DO USES!4 := TRUE
   USESINPUT := USES!3
   USES!1 := SETSWRCH
   USES!2 := USESWRITEF & (OTHERDIRECTIVES | SETSWRCH)
   EACHSECTION(SUPPLY)
   IF USES!1 | USES!2 DO USES!0 := TRUE
$)

AND EACHSECTION(PASS) BE
$( HIGH := -1
   $( LOW := HIGH + 1
      HIGH := LOW
      UNTIL K(HIGH) = DOT | K(HIGH) = ATEND DO HIGH := HIGH + 1
      PASS()
   $) REPEATUNTIL K(HIGH) = ATEND
$)

AND EXAMINE() BE
$( HASFILES, STARTBODY, HEAD := FALSE, -1, -1
   MATCH()
   FOR I = 0 TO BUCKETS - 1 DO BUCKET!I := -1
   FOR I = LOW TO HIGH - 1 IF K(I) = NAME DO INTERN(I)
   NAMEWORDS()
   FOR I = LOW TO HIGH - 1 IF K(I) = CHARACTER DO APOSTROPHES(I)
   DIRECTIVES()
   DECLARATIONS()
   COMMANDS()
   BLOCKS()
   RENAME()
   FOR I = LOW TO HIGH - 1 DO EXPRESSION(I)
   SETSTATICS()
   FOR I = LOW TO HIGH - 1 IF K(I) = NAME & (NAMEHAS(I, SET) | NAMEHAS(I, DEFINED)) DO SETNAMES%NAMEHASH(I, 4095) := 1
   MATE!T(HIGH) := HASFILES -> -1, 0
$)

AND MATCH() BE
$( LET DEPTH = 0
   FOR I = LOW TO HIGH - 1 SWITCHON K(I) INTO
   $( CASE OPEN: CASE LEFT:
         IF DEPTH < NESTING DO
         $( OPENED!DEPTH := I
            DEPTH := DEPTH + 1
         $)
         ENDCASE
      CASE RIGHT:
         IF DEPTH > 0 & K(OPENED!(DEPTH - 1)) = LEFT DO
         $( DEPTH := DEPTH - 1
            PAIR(OPENED!DEPTH, I)
         $)
         ENDCASE
      CASE CLOSE:
      $( LET D = DEPTH - 1
         WHILE D >= 0 & ~CLOSES.BRACKET(I, OPENED!D) DO D := D - 1
         WHILE D >= 0 & DEPTH > D DO
         $( DEPTH := DEPTH - 1
            PAIR(OPENED!DEPTH, I)
         $)
      $)
   $)
$)

AND PAIR(I, J) BE MATE!T(I), MATE!T(J) := J, I

// Whether the closing bracket I is that of the opening one J: it has no tag, or the same.
AND CLOSES.BRACKET(I, J) = VALOF
$( UNLESS K(J) = OPEN RESULTIS FALSE
   UNLESS TAGGED(I) RESULTIS TRUE
   RESULTIS TAGGED(J) & SAMETAG(TAGAT(I), TAGAT(J))
$)

// The first byte of a bracket's tag, if it has one.
AND TAGAT(I) = FROM!T(I) + (BYTE(FROM!T(I)) = '$' -> 2, 1)

AND TAGGED(I) = UPTO!T(I) > TAGAT(I)

// The first token of the section with the spelling of token I; its kind is that of the word.
AND INTERN(I) BE
$( LET H, V = 0, T(I)
   FOR Q = FROM!V TO UPTO!V - 1 DO H := (H * 31 + BYTE(Q)) & #XFFFFFF
   H := H & (BUCKETS - 1)
   $( LET J = BUCKET!H
      UNTIL J < 0 | SPELTALIKE(I, J) DO J := LINKED!T(J)
      IF J < 0 DO
      $( J := I
         LINKED!V := BUCKET!H
         BUCKET!H := I
         LOADNAME(I)
         KIND!V := KEYWORD()
      $)
      FIRST!V, KIND!V := J, K(J)
   $)
$)

AND SPELTALIKE(I, J) = VALOF
$( LET V, W = T(I), T(J)
   LET N = UPTO!V - FROM!V
   UNLESS UPTO!W - FROM!W = N RESULTIS FALSE
   FOR Q = 0 TO N - 1 UNLESS BYTE(FROM!V + Q) = BYTE(FROM!W + Q) RESULTIS FALSE
   RESULTIS TRUE
$)

// Whether two names are one here.
AND SAMENAME(I, J) = VALOF
$( LET V, W = T(I), T(J)
   LET N = UPTO!V - FROM!V
   UNLESS UPTO!W - FROM!W = N RESULTIS FALSE
   FOR Q = 0 TO N - 1 UNLESS UPPER(BYTE(FROM!V + Q)) = UPPER(BYTE(FROM!W + Q)) RESULTIS FALSE
   RESULTIS TRUE
$)

// Reserved words that the section declares are names.
AND NAMEWORDS() BE
$( FOR I = LOW TO HIGH - 1 DO
   $( LET J = I + 1
      SWITCHON K(I) INTO
      $( CASE S.LET: CASE S.AND:
            IF K(J) >= S.LET & (K(J + 1) = LEFT | K(J + 1) = EQUAL | K(J + 1) = COMMA) DO NAMEWORD(J)
            TEST K(J + 1) = LEFT DO FOR F = J + 2 TO MATE!T(J + 1) - 1 DO NAMEWORD(F)
            OR WHILE K(J + 1) = COMMA DO
            $( J := J + 2
               NAMEWORD(J)
            $)
            ENDCASE
         CASE S.FOR:
            IF K(J + 1) = EQUAL DO NAMEWORD(J)
            ENDCASE
         CASE S.GLOBAL: CASE S.MANIFEST: CASE S.STATIC: CASE S.EXTERNAL:
            IF K(J) = OPEN DO
               FOR F = J + 1 TO MATE!T(J) - 1 IF K(F) >= S.LET & (K(F - 1) = OPEN | K(F - 1) = SEMICOLON | HAS(F, FRESH)) DO
                  IF K(F + 1) = COLON | K(F + 1) = EQUAL | K(F + 1) = SEMICOLON | K(F + 1) = CLOSE DO NAMEWORD(F)
      $)
   $)
   FOR I = LOW TO HIGH - 1 IF FIRST!T(I) > 0 | K(I) = NAME DO
      IF ISWORD(I) DO
      $( KIND!T(I) := K(FIRST!T(I))
         // after an operand it is the reserved word
         IF K(I) = NAME & I > LOW & ~HAS(I, FRESH) DO IF ENDSOPERAND(I - 1) DO
         $( LOADNAME(I)
            KIND!T(I) := KEYWORD()
         $)
      $)
$)

// Whether token I is a word.
AND ISWORD(I) = ISLETTER(BYTE(FROM!T(I)))

// Token I is a name, if it is a word; one that is reserved here gets another spelling.
AND NAMEWORD(I) BE IF K(I) >= S.LET & I < HIGH DO
$( IF K(I) <= S.REM DO FLAGNAME(I, RENAMED)
   KIND!T(FIRST!T(I)) := NAME
   KIND!T(I) := NAME
$)

// A string between apostrophes: one of three bytes or more.
AND APOSTROPHES(I) BE
$( LET Q, R, N = FROM!T(I) + 1, UPTO!T(I) - 1, 0
   UNLESS BYTE(Q - 1) = '*'' & BYTE(R) = '*'' RETURN
   WHILE Q < R DO
   $( LET C = BYTEOF(Q)
      IF C < 0 RETURN
      Q, N := FOUND, N + 1
   $)
   IF N > 2 DO KIND!T(I), SUFFIX!T(I) := STRING, 1
$)

// SECTION, NEEDS and GET.
AND DIRECTIVES() BE
$( LET HEADER.AT = -1
   FOR I = LOW TO HIGH - 1 SWITCHON K(I) INTO
   $( CASE S.SECTION: CASE S.NEEDS:
         IF K(I + 1) = STRING | K(I + 1) = NAME DO
         $( FLAG(I, ASCOMMENT)
            KIND!T(I + 1) := DROPPED
            TURNED := TURNED + 1
         $)
         ENDCASE
      CASE S.GET:
         UNLESS K(I + 1) = STRING | K(I + 1) = NAME ENDCASE
         TEST K(I + 1) = STRING DO LOADWORD(FROM!T(I + 1) + 1, UPTO!T(I + 1) - 1) OR LOADNAME(I + 1)
         TEST PLACE("LIBHDR LIBHDR.H LIBHDR2 ") >= 0 DO
         $( TEST HEADER.AT < 0 DO HEADER.AT := I + 1
            OR
            $( FLAG(I, ASCOMMENT)
               KIND!T(I + 1) := DROPPED
            $)
            IF IS("LIBHDR.H") | K(I + 1) = NAME DO TURN(I + 1, "*"LIBHDR*"", 0)
         $)
         OR TEST ISSYSTEM() DO
         $( FLAG(I, ASCOMMENT)
            KIND!T(I + 1) := DROPPED
            TURNED := TURNED + 1
         $)
         OR
         $( HASFILES := TRUE
            MARK(I + 1, "a file: tools/join puts it in here")
         $)
         IF K(I + 1) = NAME DO KIND!T(I + 1) := STRING
   $)
   VALUE!T(HIGH) := HEADER.AT
$)

// Headers of other systems: what is needed of them is here or is marked where it is used.
AND ISSYSTEM() = VALOF
$( IF PLACE("IOHDR SYSHDR MANHDR CLIHDR TERMHDR FILEHDR SEGHDR RINGHDR BCPLLIB BLIB.H STREAMS.D SYSDEFS.D ALTODEFS.D ") >= 0 RESULTIS TRUE
   RESULTIS ALTO & WORD%0 > 2 & WORD%(WORD%0) = 'D' & WORD%(WORD%0 - 1) = '.'
$)

AND DECLARATIONS() BE
$( LET INNER, NEXT = -1, -1     // the last token of an outermost section, and the next global
   FOR I = LOW TO HIGH - 1 SWITCHON K(I) INTO
   $( CASE OPEN:
         IF I > INNER DO INNER := MATE!T(I)
         ENDCASE
      CASE S.LET: CASE S.AND:
         IF I > INNER DO FLAG(I, OUTER)
         DEFINITION(I + 1, I > INNER)
         ENDCASE
      CASE S.FOR:
         IF K(I + 1) = NAME DO FLAGNAME(I + 1, DECLARED | VARIABLE)
         ENDCASE
      CASE S.GLOBAL: CASE S.MANIFEST: CASE S.STATIC: CASE S.EXTERNAL:
         IF K(I + 1) = OPEN & MATE!T(I + 1) > I DO NEXT := ITEMS(I + 1, K(I), NEXT, I > INNER)
   $)
$)

// A definition that begins with the name I.
AND DEFINITION(I, OUTERMOST) BE IF K(I) = NAME DO
TEST K(I + 1) = LEFT DO
$( LET J = MATE!T(I + 1)
   FLAGNAME(I, DECLARED | DEFINED)
   FOR F = I + 2 TO J - 1 IF K(F) = NAME DO FLAGNAME(F, DECLARED | VARIABLE)
   LOADNAME(I)
   IF IS("START") & OUTERMOST & J > I DO
   $( J := J + 1
      STARTVALUE := K(J) = EQUAL & K(J + 1) = S.VALOF
      IF STARTVALUE DO J := J + 1
      IF K(J + 1) = OPEN DO STARTBODY := J + 1
      IF STARTBODY > 0 & K(I + 2) = NAME DO
         FOR F = STARTBODY TO MATE!T(STARTBODY) IF K(F) = NAME & FIRST!T(F) = FIRST!T(I + 2) DO MARK(F, "START has no arguments: read them from the input")
   $)
$)
OR
$( LET E = ?
   FLAGNAME(I, DECLARED | VARIABLE)
   IF K(I + 1) = EQUAL DO
   $( E := ENDOF(I + 2, FALSE)
      IF S.REPEAT <= K(E + 1) <= S.REPEATUNTIL DO
      $( FLAG(I + 1, SETLATER)
         MATE!T(I + 1) := I
         TURNED := TURNED + 1
      $)
   $)
   WHILE K(I + 1) = COMMA & K(I + 2) = NAME DO
   $( I := I + 2
      FLAGNAME(I, DECLARED | VARIABLE)
   $)
$)

// The items between the brackets of a declaration: names that have no number or value get theirs. The result is the number of the
// next global.
AND ITEMS(I, WHICH, NEXT, OUTERMOST) = VALOF
$( LET J, END, BEFOREIT, LAST, LASTSURE = I + 1, MATE!T(I), -1, -1, TRUE
   LET GLOBALS = WHICH = S.GLOBAL | WHICH = S.EXTERNAL
   FOR F = I TO END DO FLAG(F, INDECLARATION)
   IF WHICH = S.EXTERNAL DO TURN(I - 1, "GLOBAL", 0)
   WHILE J < END TEST K(J) ~= NAME DO
   $( IF K(J) = COMMA DO TURN(J, ";", 0)
      J := J + 1
   $)
   OR
   $( LET N, E, V = J, J, 0
      LET GIVEN = K(J + 1) = COLON | K(J + 1) = EQUAL
      IF GIVEN DO
      $( E := ENDITEM(J + 2, END)
         V := CONSTANTIN(J + 2, E)
      $)
      TEST GLOBALS DO
      $( TEST GIVEN DO NEXT := SURE -> V, -2
         OR
         $( IF NEXT = -1 DO NEXT := FIRSTNUMBER(N)
            TEST NEXT < 0 DO MARK(N, "its number is not known: write it")
            OR AFTERIS(N, ":%N", NEXT)
         $)
         FLAG(N, WHICH = S.EXTERNAL -> SHARED | FOREIGN, SHARED)
         FLAGNAME(N, DECLARED | SHARED)
         IF 801 <= NEXT <= 811 DO OTHERNUMBERS := TRUE
         NEWVALUE!T(N) := NEXT
         MATE!T(N) := E
         IF NEXT >= 0 DO NEXT := NEXT + 1
      $)
      OR TEST WHICH = S.MANIFEST DO
      $( UNLESS GIVEN DO
         $( V, SURE := LAST + 1, LASTSURE
            TEST SURE DO AFTERIS(N, "=%N", V)
            OR
            $( FLAG(N, SUCCESSOR)
               MATE!T(N) := BEFOREIT
            $)
         $)
         LOADNAME(N)
         IF GIVEN & SURE & IS("BYTESPERWORD") & V ~= BYTESPERWORD DO MARK(N, "a word has 4 bytes here")
         IF NAMEHAS(N, CONSTANT) DO FLAGNAME(N, TWICE)
         FLAGNAME(N, DECLARED | CONSTANT)
         IF SURE DO FLAGNAME(N, KNOWN)
         VALUE!T(FIRST!T(N)) := V
         LAST, LASTSURE := V, SURE
      $)
      OR
      $( FLAGNAME(N, DECLARED | VARIABLE)
         TEST ~GIVEN DO AFTERIS(N, "=0", 0)
         OR UNLESS SURE DO STATICITEM(J + 1, E, OUTERMOST)
      $)
      BEFOREIT := N
      J := E + 1
   $)
   RESULTIS NEXT
$)

// Whether token I is an item of GLOBAL; NEWVALUE is its number.
AND ISITEM(I) = K(I) = NAME & HAS(I, SHARED) & HAS(I, INDECLARATION)

// The number of a global that has none, and none is before it: the one that it has in another section, or one that none has.
AND FIRSTNUMBER(N) = VALOF
$( LET FREE = FIRSTGLOBAL
   FOR I = 0 TO N - 1 IF ISITEM(I) DO
   $( IF SAMENAME(I, N) RESULTIS NEWVALUE!T(I)
      IF FREE <= NEWVALUE!T(I) < 800 DO FREE := NEWVALUE!T(I) + 1
   $)
   RESULTIS FREE
$)

AND AFTERIS(I, FORMAT, N) BE
$( AFTER!T(I), AFTERVALUE!T(I) := FORMAT, N
   TURNED := TURNED + 1
$)

// The last token of an item's constant from J on.
AND ENDITEM(J, END) = VALOF
$( LET E = J
   WHILE E < END DO
   $( IF K(E) = SEMICOLON | (K(E) = COMMA & K(J) ~= S.TABLE) BREAK
      IF HAS(E, FRESH) & K(E) = NAME & E > J DO IF ENDSOPERAND(E - 1) BREAK
      IF (K(E) = LEFT | K(E) = OPEN) & MATE!T(E) > E DO E := MATE!T(E)
      E := E + 1
   $)
   RESULTIS E - 1
$)

// A static whose value is no constant, from the token I before it to E: it is 0, and START sets it.
AND STATICITEM(I, E, OUTERMOST) BE
TEST OUTERMOST DO
$( LINKED!T(I), MATE!T(I) := HEAD, E
   HEAD := I
$)
OR MARK(I, "a static that is no constant: begin with 0, and set it in START")

AND SETSTATICS() BE UNTIL HEAD < 0 DO
$( LET I = HEAD
   HEAD := LINKED!T(I)
   TEST STARTBODY < 0 DO MARK(I, "a static that is no constant: begin with 0, and set it in START")
   OR
   $( TURN(I + 1, "0", 0)
      FOR J = I + 2 TO MATE!T(I) DO NEW!T(J) := ""
      LINKED!T(I) := VALUE!T(STARTBODY) - 1
      VALUE!T(STARTBODY) := I + 1
      UNLESS HAS(STARTBODY, PROLOGUE) DO
      $( FLAG(STARTBODY, PROLOGUE)
         AFTER!T(MATE!T(STARTBODY)) := " $)"
      $)
   $)
$)

// ---- constants ----

// The value of the constant that takes the tokens from I to E; SURE says whether it has one.
AND CONSTANTIN(I, E) = VALOF
$( LET V = ?
   POINT, SURE := I, TRUE
   V := OPERATION(0)
   UNLESS POINT = E + 1 DO SURE := FALSE
   RESULTIS V
$)

// An expression of the operators of this row and those that bind tighter.
AND OPERATION(ROW) = VALOF
$( LET A, B, OP = ?, ?, ?
   IF ROW = 8 RESULTIS CONSTANTOPERAND()
   IF ROW = 3 & (K(POINT) = TILDE | K(POINT) = S.NOT) DO
   $( POINT := POINT + 1
      RESULTIS NOT OPERATION(3)
   $)
   A := OPERATION(ROW + 1)
   IF ROW = 5 & ISRELATION(POINT) RESULTIS CHAIN(A)
   $( OP := OPERATOR(K(POINT))
      UNLESS ROWOF(OP) = ROW RESULTIS A
      POINT := POINT + 1
      B := OPERATION(ROW + 1)
      SWITCHON OP INTO
      $( CASE S.EQV: A := A EQV B; ENDCASE
         CASE S.NEQV: A := A NEQV B; ENDCASE
         CASE BAR: A := A | B; ENDCASE
         CASE AMPERSAND: A := A & B; ENDCASE
         CASE SHIFTLEFT: A := A << B; ENDCASE
         CASE SHIFTRIGHT: A := A >> B; ENDCASE
         CASE PLUS: A := A + B; ENDCASE
         CASE MINUS: A := A - B; ENDCASE
         CASE STAR: A := A * B; ENDCASE
         CASE SLASH: CASE S.REM:
            TEST B = 0 DO SURE := FALSE OR A := OP = SLASH -> A / B, A REM B
      $)
   $) REPEAT
$)

// The value of relations that begin with the operand A.
AND CHAIN(A) = VALOF
$( LET V = TRUE
   WHILE ISRELATION(POINT) DO
   $( LET S, B = RELATIONAT(POINT), ?
      POINT := POINT + 1
      B := OPERATION(6)
      V := V & (S = '=' -> A = B, S = '~' -> A ~= B, S = '<' -> A < B, S = '>' -> A > B, S = 'L' -> A <= B, A >= B)
      A := B
   $)
   RESULTIS V
$)

// The sign of the relation at I: that of <= is L, and that of >= is G.
AND RELATIONAT(I) = VALOF SWITCHON K(I) INTO
$( CASE EQUAL: CASE S.EQ: RESULTIS '='
   CASE S.NE: RESULTIS '~'
   CASE S.LS: CASE 88: RESULTIS '<'
   CASE 89: CASE 90: RESULTIS '>'
   CASE 91: RESULTIS 'L'
   CASE S.GE: RESULTIS 'G'
   DEFAULT:
   $( LET C = BYTE(FROM!T(I))
      LET TWO = UPTO!T(I) - FROM!T(I) = 2
      RESULTIS C = '<' -> (TWO -> 'L', '<'), C = '>' -> (TWO -> 'G', '>'), '~'
   $)
$)

// The kind of the sign that an operator is, if it is a word.
AND OPERATOR(KIND) = VALOF SWITCHON KIND INTO
$( CASE S.LSHIFT: RESULTIS SHIFTLEFT
   CASE S.RSHIFT: RESULTIS SHIFTRIGHT
   CASE S.LOGAND: RESULTIS AMPERSAND
   CASE S.LOGOR: RESULTIS BAR
   CASE S.MOD: RESULTIS S.REM
   CASE S.XOR: RESULTIS S.NEQV
   CASE S.LV: RESULTIS AT
   CASE S.RV: RESULTIS BANG
   DEFAULT: RESULTIS KIND
$)

AND ROWOF(OP) = VALOF SWITCHON OP INTO
$( CASE S.EQV: CASE S.NEQV: RESULTIS 0
   CASE BAR: RESULTIS 1
   CASE AMPERSAND: RESULTIS 2
   CASE SHIFTLEFT: CASE SHIFTRIGHT: RESULTIS 4
   CASE PLUS: CASE MINUS: RESULTIS 6
   CASE STAR: CASE SLASH: CASE S.REM: RESULTIS 7
   DEFAULT: RESULTIS -1
$)

AND CONSTANTOPERAND() = VALOF
$( LET I, V = POINT, 0
   POINT := POINT + 1
   SWITCHON K(I) INTO
   $( CASE NUMBER: RESULTIS NUMBERAT(I)
      CASE CHARACTER: RESULTIS CHARACTERAT(I)
      CASE S.TRUE: RESULTIS TRUE
      CASE S.FALSE: RESULTIS FALSE
      CASE PLUS: RESULTIS OPERATION(7)
      CASE MINUS: RESULTIS -OPERATION(7)
      CASE TILDE: CASE S.NOT: RESULTIS NOT OPERATION(4)
      CASE LEFT:
         V := OPERATION(0)
         UNLESS K(POINT) = RIGHT DO SURE := FALSE
         POINT := POINT + 1
         RESULTIS V
      CASE S.SLCT:
      $( LET N = 0
         $( V := (V << 8) | (OPERATION(0) & (N = 2 -> #XFFFF, #XFF))
            N := N + 1
            IF K(POINT) ~= COLON | N = 3 BREAK
            POINT := POINT + 1
            IF N = 2 DO V := V << 8
         $) REPEAT
         RESULTIS N = 1 -> V << 24, N = 2 -> V << 16, V
      $)
      CASE NAME:
         IF NAMEHAS(I, KNOWN) & ~NAMEHAS(I, TWICE) RESULTIS VALUE!T(FIRST!T(I))
         LOADNAME(I)
         IF NAMEHAS(I, DECLARED) ENDCASE
         IF IS("UG") RESULTIS FIRSTGLOBAL
         IF IS("ENDSTREAMCH") RESULTIS ENDSTREAMCH
         IF IS("BYTESPERWORD") RESULTIS BYTESPERWORD
         IF IS("BITSPERWORD") RESULTIS 32
         IF IS("MAXINT") RESULTIS #X7FFFFFFF
         IF IS("MININT") RESULTIS #X80000000
   $)
   SURE := FALSE
   RESULTIS 0
$)

AND NUMBERAT(I) = VALOF
$( LET Q, R, BASE, N = FROM!T(I), UPTO!T(I), 10, 0
   IF BYTE(Q) = '#' DO
   $( LET C = UPPER(BYTE(Q + 1))
      BASE := C = 'X' -> 16, C = 'B' -> 2, 8
      Q := Q + (ISLETTER(C) -> 2, 1)
   $)
   FOR P = Q TO R - 1 DO
   $( LET C = UPPER(BYTE(P))
      UNLESS BYTE(P) = '_' DO
      $( C := ISDIGIT(C) -> C - '0', C - 'A' + 10
         UNLESS 0 <= C < BASE DO SURE := FALSE
         N := N * BASE + C
      $)
   $)
   RESULTIS N
$)

// The byte of a character constant, if it has one.
AND CHARACTERAT(I) = VALOF
$( LET Q, R = FROM!T(I) + 1, UPTO!T(I)
   LET C = ?
   UNLESS BYTE(Q - 1) = '$' DO R := R - 1
   C := BYTEOF(Q)
   UNLESS FOUND = R & C >= 0 DO SURE := FALSE
   RESULTIS C
$)

// The byte that a string or a character constant has at Q, or -1 at the end of a line in it and -2 at an unknown escape; FOUND is
// the byte after it.
AND BYTEOF(Q) = VALOF
$( LET C, D, N = BYTE(Q), UPPER(BYTE(Q + 1)), 0
   FOUND := Q + 1
   IF C = '*N' RESULTIS -1
   UNLESS C = '**' RESULTIS C
   IF BLANKLINE(Q + 1) DO
   $( FOUND := LINEEND(Q + 1) + 1
      WHILE ISBLANK(BYTE(FOUND)) | (BYTE(FOUND) = '*N' & FOUND < BYTES) DO FOUND := FOUND + 1
      IF BYTE(FOUND) = '**' DO FOUND := FOUND + 1
      RESULTIS -1
   $)
   FOUND := Q + 2
   SWITCHON D INTO
   $( CASE 'N': RESULTIS 10
      CASE 'T': RESULTIS 9
      CASE 'S': RESULTIS 32
      CASE 'B': RESULTIS 8
      CASE 'P': RESULTIS 12
      CASE 'C': RESULTIS 13
      CASE 'E': RESULTIS 27
      CASE '**': CASE '"': CASE '*'': RESULTIS D
      CASE 'X': RESULTIS DIGITS(Q + 2, 2, 16)
      CASE 'D': RESULTIS DIGITS(Q + 2, 3, 10)
      CASE '0': CASE '1': CASE '2': CASE '3': RESULTIS DIGITS(Q + 1, 3, 8)
   $)
   RESULTIS -2
$)

// The number of just N digits from Q on, or -2.
AND DIGITS(Q, N, BASE) = VALOF
$( LET V = 0
   FOR P = Q TO Q + N - 1 DO
   $( LET C = UPPER(BYTE(P))
      LET D = ISDIGIT(C) -> C - '0', 'A' <= C <= 'F' -> C - 'A' + 10, 99
      IF D >= BASE RESULTIS -2
      V := V * BASE + D
   $)
   FOUND := Q + N
   RESULTIS V & #XFF
$)

// ---- names that would be one ----

AND RENAME() BE
$( LET SENSITIVE = ISSENSITIVE()
   FOR I = 0 TO BUCKETS - 1 DO BUCKET!I := -1
   FOR I = LOW TO HIGH - 1 IF K(I) = NAME & FIRST!T(I) = I DO
   $( LET H = HASH(I)
      LINKED!T(I) := BUCKET!H
      BUCKET!H := I
   $)
   FOR I = LOW TO HIGH - 1 IF K(I) = NAME & FIRST!T(I) = I DO
   $( TEST HAS(I, RENAMED) | UPTO!T(I) - FROM!T(I) > 255 DO GIVESUFFIX(I)
      OR
      $( LET J = BUCKET!(HASH(I))
         UNTIL J < 0 DO
         $( IF J < I & ~HAS(J, RENAMED) DO IF SAMENAME(I, J) DO IF SENSITIVE | DIFFERS(I, J) DO APART(J, I)
            J := LINKED!T(J)
         $)
      $)
   $)
$)

// Whether capitals and small letters differ: not where reserved words are written in two ways.
AND ISSENSITIVE() = VALOF
$( LET STYLE = 0
   FOR I = LOW TO HIGH - 1 IF S.LET <= K(I) <= S.FALSE & K(I) ~= S.GET & K(I) ~= S.SECTION & K(I) ~= S.NEEDS DO
   $( LET SMALL, Q = ISSMALL(BYTE(FROM!T(I))), FROM!T(I) + 1
      UNLESS ISSMALL(BYTE(Q)) = SMALL RESULTIS FALSE
      IF STYLE = (SMALL -> 1, 2) RESULTIS FALSE
      STYLE := SMALL -> 2, 1
   $)
   RESULTIS TRUE
$)

AND ISSMALL(C) = 'a' <= C <= 'z'

// Whether two names of one length differ in more than the case of letters.
AND DIFFERS(I, J) = VALOF
$( FOR Q = 0 TO UPTO!T(I) - FROM!T(I) - 1 DO
   $( LET C, D = BYTE(FROM!T(I) + Q), BYTE(FROM!T(J) + Q)
      UNLESS (C = '_') = (D = '_') RESULTIS TRUE
   $)
   RESULTIS FALSE
$)

AND HASH(I) = NAMEHASH(I, BUCKETS - 1)

AND NAMEHASH(I, MASK) = VALOF
$( LET H = 0
   FOR Q = FROM!T(I) TO UPTO!T(I) - 1 DO H := (H * 31 + UPPER(BYTE(Q))) & #XFFFFFF
   RESULTIS H & MASK
$)

// Two spellings of one name: where both are declared they are two names, and one gets another spelling. Where the library has the
// name that is not declared, the other one does, and is marked.
AND APART(I, J) BE
$( LET D = HAS(I, DECLARED) -> I, J
   LOADNAME(I)
   TEST HAS(I, DECLARED) & HAS(J, DECLARED) DO GIVESUFFIX(OLDPLACE() >= 0 & ISTHELIBRARYS(J) & ~ISTHELIBRARYS(I) -> I, J)
   OR IF OLDPLACE() >= 0 & HAS(D, DECLARED) DO
      UNLESS HAS(D, SHARED) & ~HAS(D, DEFINED) DO
      $( GIVESUFFIX(D)
         MARK(D, "renamed: the library has this name in other letters")
      $)
$)

// Whether a name of the library is that one: it is a global, or it is START and has formals.
AND ISTHELIBRARYS(I) = HAS(I, SHARED) | (IS("START") & HAS(I, DEFINED))

// The name I is written with a dot and a number that no other name of the section has.
AND GIVESUFFIX(I) BE
$( LET N = 1
   UNTIL ISNEW(I, N) DO N := N + 1
   FLAG(I, RENAMED)
   SUFFIX!T(I) := N
   TURNED := TURNED + 1
$)

// Whether no other name of the section is spelt like name I with this number.
AND ISNEW(I, N) = VALOF
$( LET V, L = VEC 63, 0
   UNLESS HAS(I, DECLARED) | UPTO!T(I) - FROM!T(I) > 255 | TRUE RESULTIS FALSE
   LOADNAME(I)
   L := WORD%0 > 240 -> 240, WORD%0
   WORD%(L + 1) := '.'
   L := L + 2
   IF N > 9 DO
   $( WORD%L := '0' + N / 10 REM 10
      L := L + 1
   $)
   WORD%L := '0' + N REM 10
   WORD%0 := L
   FOR J = LOW TO HIGH - 1 IF K(J) = NAME & FIRST!T(J) = J & J ~= I DO
   $( LET W = T(J)
      IF UPTO!W - FROM!W = L DO IF ISWORDAT(FROM!W) RESULTIS FALSE
      IF HAS(J, RENAMED) & SUFFIX!W = N & (UPTO!W - FROM!W > 240 | SAMENAME(I, J)) RESULTIS FALSE
   $)
   RESULTIS TRUE
$)

// Whether WORD is at the byte Q.
AND ISWORDAT(Q) = VALOF
$( FOR I = 1 TO WORD%0 UNLESS UPPER(BYTE(Q + I - 1)) = WORD%I RESULTIS FALSE
   RESULTIS TRUE
$)

// ---- commands ----

AND COMMANDS() BE
$( FOR I = LOW TO HIGH - 1 UNLESS HAS(I, INDECLARATION) DO
   $( IF I > LOW DO IF ISCOMMAND(I) DO FLAG(I, COMMAND)
      IF HAS(I, COMMAND) DO
      $( LET KIND = OPERATOR(K(I))
         TEST KIND = NAME & K(I + 1) = COLON DO FLAGNAME(I, DECLARED | LABEL)
         OR IF KIND = NAME | KIND = LEFT | KIND = BANG | KIND = AT | KIND = NUMBER DO ASSIGNMENT(I)
      $)
   $)
   FOR I = LOW TO HIGH - 1 IF K(I) = NAME & NAMEHAS(I, LABEL) DO
      UNLESS K(I - 1) = S.GOTO & K(ENDOF(I, FALSE)) = NAME & ENDOF(I, FALSE) = I | (HAS(I, COMMAND) & K(I + 1) = COLON) DO LABELVALUE(I)
   FOR I = LOW TO HIGH - 1 IF K(I) = S.GOTO DO
   $( LET E = ENDOF(I + 1, FALSE)
      UNLESS E = I + 1 & K(E) = NAME & LABELIN(E, I) DO JUMP(I, E)
   $)
$)

// A declaration after a command, which other compilers take, begins a block: it ends with the one that it is in, or before a CASE.
AND BLOCKS() BE
$( LET D = 0
   FOR I = LOW TO HIGH - 1 SWITCHON K(I) INTO
   $( CASE OPEN:
         IF D < NESTING DO
         $( OPENED!D, STATES!D := I, 0
            D := D + 1
         $)
         ENDCASE
      CASE CLOSE:
         WHILE D > 0 & MATE!T(OPENED!(D - 1)) <= I DO
         $( D := D - 1
            SUFFIX!T(I) := SUFFIX!T(I) + (STATES!D >> 1)
         $)
         ENDCASE
      CASE S.LET: CASE S.GLOBAL: CASE S.MANIFEST: CASE S.STATIC:
         IF D > 0 DO IF (STATES!(D - 1) & 1) = 1 DO
         $( BEFORE!T(I) := "$( "
            STATES!(D - 1) := STATES!(D - 1) + 1
            TURNED := TURNED + 1
         $)
         ENDCASE
      CASE S.CASE: CASE S.DEFAULT:
         IF D > 0 DO
         $( SUFFIX!T(I) := STATES!(D - 1) >> 1
            STATES!(D - 1) := 1
         $)
         ENDCASE
      DEFAULT:
         // a command of the block, and not of a definition in it
         IF D > 0 & HAS(I, COMMAND) & K(I) ~= SEMICOLON & K(I) ~= S.AND DO
            IF K(I - 1) = SEMICOLON | OPENED!(D - 1) = I - 1 | (HAS(I, FRESH) & BEGINS(I) & ENDSCOMMAND(I - 1)) DO
               STATES!(D - 1) := STATES!(D - 1) | 1
   $)
$)

// The outermost definition that token I is in, or the section's beginning.
AND DEFINITIONOF(I) = VALOF
$( FOR J = I TO LOW BY -1 IF (K(J) = S.LET | K(J) = S.AND) & K(J + 1) = NAME & K(J + 2) = LEFT DO IF HAS(J, OUTER) RESULTIS J
   RESULTIS LOW
$)

// Whether the definition that token J is in has a label of the name of token I.
AND LABELIN(I, J) = VALOF
$( LET F = DEFINITIONOF(J)
   LET D = F
   WHILE F < HIGH & (F < D + 2 | ~((K(F) = S.LET | K(F) = S.AND) & HAS(F, OUTER))) DO
   $( IF K(F) = NAME & FIRST!T(F) = FIRST!T(I) & HAS(F, COMMAND) & K(F + 1) = COLON RESULTIS TRUE
      F := F + 1
   $)
   RESULTIS FALSE
$)

// A label as a value is a number, where a GOTO of its procedure takes it.
AND LABELVALUE(I) BE
$( LET OTHERS = NAMEHAS(I, VARIABLE | SHARED | CONSTANT | DEFINED)
   LET WITHIN = LABELIN(I, I)
   // what another procedure has as a label
   IF OTHERS & (~WITHIN | NAMEHAS(I, VARIABLE)) RETURN
   TEST WITHIN & ~OTHERS & JUMPSIN(I) DO
   $( UNLESS NAMEHAS(I, VALUED) DO
      $( LABELCOUNT := LABELCOUNT + 1
         FLAGNAME(I, VALUED)
         VALUE!T(FIRST!T(I)) := LABELCOUNT
      $)
      TURN(I, "%N", VALUE!T(FIRST!T(I)))
   $)
   OR MARK(I, "a label as a value: write SWITCHON, or procedures as values")
$)

// Whether the definition that token I is in has a GOTO of a value.
AND JUMPSIN(I) = VALOF
$( LET D = DEFINITIONOF(I)
   FOR J = D TO HIGH - 1 DO
   $( IF J > D + 1 & (K(J) = S.LET | K(J) = S.AND) & HAS(J, OUTER) BREAK
      IF K(J) = S.GOTO DO UNLESS K(J + 1) = NAME & ENDOF(J + 1, FALSE) = J + 1 & LABELIN(J + 1, J) RESULTIS TRUE
   $)
   RESULTIS FALSE
$)

// GOTO of a value, with the tokens I + 1 to E, is a SWITCHON with a GOTO for each label that is used as a value in its definition.
AND JUMP(I, E) BE
$( LET VALUES = FALSE
   FOR J = LOW TO HIGH - 1 IF K(J) = NAME & NAMEHAS(J, VALUED) & HAS(J, COMMAND) & LABELIN(J, I) DO VALUES := TRUE
   TEST VALUES & E > I DO
   $( TURN(I, "SWITCHON", 0)
      FLAG(E, JUMPS)
      AFTERVALUE!T(E) := I
   $)
   OR MARK(I, "GOTO of a value, or of a label of another section: write SWITCHON, or procedures as values")
$)

// Whether token I begins a command.
AND ISCOMMAND(I) = VALOF SWITCHON K(I - 1) INTO
$( CASE SEMICOLON: CASE OPEN: CASE S.DO: CASE S.THEN: CASE S.OR: CASE S.ELSE: CASE S.IFSO: CASE S.IFNOT: CASE S.BE: CASE S.VALOF:
   CASE S.REPEAT: CASE SEQUENCE:
      RESULTIS TRUE
   CASE COLON: RESULTIS ~INSELECTOR(I - 1)
   DEFAULT: RESULTIS HAS(I, FRESH) & BEGINS(I) & ENDSCOMMAND(I - 1)
$)

// Whether the colon I is in a SLCT.
AND INSELECTOR(I) = VALOF
$( FOR J = I - 1 TO I - 6 BY -1 DO
   $( IF J < LOW RESULTIS FALSE
      IF K(J) = S.SLCT RESULTIS TRUE
      IF HAS(J + 1, FRESH) RESULTIS FALSE
   $)
   RESULTIS FALSE
$)

// Whether token I begins a command where it is the first one of its line.
AND BEGINS(I) = VALOF SWITCHON K(I) INTO
$( CASE NAME: CASE NUMBER: CASE LEFT: CASE BANG: CASE S.RV: CASE OPEN: CASE S.CASE: CASE S.DEFAULT: RESULTIS TRUE
   DEFAULT: RESULTIS S.FOR = K(I) | S.IF <= K(I) <= S.SWITCHON | S.GOTO <= K(I) <= S.FINISH
$)

AND ENDSOPERAND(I) = VALOF SWITCHON K(I) INTO
$( CASE NAME: CASE NUMBER: CASE STRING: CASE CHARACTER: CASE RIGHT: CASE QUERY: CASE S.NIL: CASE S.TRUE: CASE S.FALSE: RESULTIS TRUE
   DEFAULT: RESULTIS FALSE
$)

AND ENDSCOMMAND(I) = ENDSOPERAND(I) | K(I) = CLOSE | S.BREAK <= K(I) <= S.REPEAT

// The last token of the expression, or of the list, from token J on. UNSURE if it has a VALOF without brackets, whose end is not
// looked for.
AND ENDOF(J, ATCOMMA) = VALOF
$( LET I, ARROWS = J, 0
   UNSURE := FALSE
   WHILE I < HIGH DO
   $( LET KIND = K(I)
      IF I > J & HAS(I, FRESH) DO IF BEGINS(I) & ENDSCOMMAND(I - 1) RESULTIS I - 1
      SWITCHON KIND INTO
      $( CASE LEFT: CASE OPEN:
            IF KIND = OPEN & K(I - 1) ~= S.VALOF & K(I - 1) ~= S.TABLE RESULTIS I - 1
            IF MATE!T(I) > I DO I := MATE!T(I)
            ENDCASE
         CASE ARROW: ARROWS := ARROWS + 1; ENDCASE
         CASE COMMA:
            TEST ARROWS > 0 DO ARROWS := ARROWS - 1 OR IF ATCOMMA RESULTIS I - 1
            ENDCASE
         CASE S.VALOF:
            UNLESS K(I + 1) = OPEN DO UNSURE := TRUE // and on
         CASE NAME: CASE S.VEC: CASE S.TABLE: ENDCASE
         CASE RIGHT: CASE CLOSE: CASE SEMICOLON: CASE ASSIGN: CASE COLON: CASE SEQUENCE: CASE S.IFSO: CASE S.IFNOT: RESULTIS I - 1
         DEFAULT: IF S.LET <= KIND < S.TRUE RESULTIS I - 1
      $)
      I := I + 1
   $)
   RESULTIS HIGH - 1
$)

// A command from token I on, if it is an assignment.
AND ASSIGNMENT(I) BE
$( LET J = ENDOF(I, FALSE) + 1
   UNLESS K(J) = ASSIGN DO
   $( // the first = outside parentheses
      LET E, F = J - 1, I
      WHILE F <= E & K(F) ~= EQUAL DO F := (K(F) = LEFT & MATE!T(F) > F) -> MATE!T(F) + 1, F + 1
      IF F <= E DO
      $( KIND!T(F) := ASSIGN
         J := F
      $)
   $)
   IF K(J) = ASSIGN DO
   $( FOR F = I TO J - 1 IF K(F) = NAME & (F = I | K(F - 1) = COMMA) & (K(F + 1) = COMMA | F + 1 = J) DO FLAGNAME(F, SET)
      IF ISBINARY(J - 1) & UPTO!T(J - 1) = FROM!T(J) DO OPERATION.ASSIGNMENT(I, J)
   $)
$)

AND ISBINARY(I) = VALOF
$( LET OP = OPERATOR(K(I))
   RESULTIS ROWOF(OP) >= 0 | OP = BANG | OP = PERCENT
$)

// A destination from token I on, an operator and the := at J.
AND OPERATION.ASSIGNMENT(I, J) BE
$( LET E = ENDOF(J + 1, TRUE)
   LET SIMPLE = ~UNSURE & K(E + 1) ~= COMMA
   FOR F = I TO J - 2 DO
      IF K(F) = COMMA | K(F) = S.OF | K(F) = DOUBLECOLON | K(F) = S.VALOF | (K(F) = LEFT & ENDSOPERAND(F - 1) & F > I) DO SIMPLE := FALSE
   TEST ~SIMPLE DO MARK(J, "write the destination and := and the whole value")
   OR
   $( FLAG(J, OPERATES)
      VALUE!T(J) := I
      MATE!T(J) := E
      NEW!T(J - 1) := ""
      TURNED := TURNED + 1
      IF E > J + 1 DO CLOSES!T(E) := CLOSES!T(E) + 1
   $)
$)

// ---- expressions ----

AND EXPRESSION(I) BE SWITCHON K(I) INTO
$( CASE S.OF: CASE DOUBLECOLON: FIELD(I); ENDCASE
   CASE S.SLCT: SELECTOR(I); ENDCASE
   CASE S.RESULTIS: IF STARTVALUE DO STATUS(I); ENDCASE
   CASE CLOSE: IF MATE!T(I) = 0 DO MARK(I, "no section with this tag is open"); ENDCASE
   CASE S.ABS: ABSOLUTE(I); ENDCASE
   CASE S.TABLE: TABLEOF(I); ENDCASE
   CASE SHIFTLEFT: CASE SHIFTRIGHT: CASE S.LSHIFT: CASE S.RSHIFT: IF ALTO DO SHIFT(I); ENDCASE
   CASE SEQUENCE: MARK(I, "<> between commands: write $( C; C $)"); ENDCASE
   CASE S.MATCH: CASE S.EVERY: MARK(I, "MATCH and EVERY: write SWITCHON or TEST"); ENDCASE
   CASE S.FLT: CASE 110: CASE S.FIX: MARK(I, "no floating point"); ENDCASE
   CASE S.STRUCTURE: MARK(I, "a structure: write MANIFEST, shifts and masks"); ENDCASE
   CASE S.SELECTON: CASE 114: CASE 115: CASE 116: CASE S.ABORT: MARK(I, "a form that there is not here"); ENDCASE
   CASE OTHER:
      MARK(I, BYTE(FROM!T(I)) = '#' -> "no floating point", BYTE(FROM!T(I)) = '=' -> "a pattern: write SWITCHON or TEST",
              "a byte that begins no symbol here")
      ENDCASE
   CASE NUMBER:
      FOR Q = FROM!T(I) TO UPTO!T(I) - 1 IF BYTE(Q) = '.' DO MARK(I, "no floating point")
      ENDCASE
   CASE AT: CASE S.LV: IF K(I + 1) = NAME DO FLAGNAME(I + 1, SET); ENDCASE
   CASE NAME:
      UNLESS ISITEM(I) DO FLAGNAME(I, USED)
      IF K(I + 1) = LEFT & ~HAS(I + 1, FRESH) DO FLAGNAME(I, CALLED)
      LOADNAME(I)
      IF IS("UG") & ~NAMEHAS(I, DECLARED) DO TURN(I, "%N", FIRSTGLOBAL)
      IF ALTO & (K(I + 1) = SHIFTLEFT | K(I + 1) = SHIFTRIGHT) DO MARK(I, "a field of a structure: write a shift and a mask")
      ENDCASE
   CASE STRING:
      DIRECTIVESOF(I) // and on
   CASE CHARACTER:
      QUOTED(I)
      ENDCASE
   CASE S.FOR:
   $( LET J = I + 1
      UNTIL K(J) = S.BY | K(J) = S.DO | K(J) = OPEN | J >= HIGH | (J > I + 1 & HAS(J, COMMAND)) DO
         J := K(J) = LEFT & MATE!T(J) > J -> MATE!T(J) + 1, J + 1
      IF K(J) = S.BY DO VARIES(J, ENDOF(J + 1, TRUE), "a step that is no constant: write WHILE")
      ENDCASE
   $)
   CASE S.VEC:
      UNLESS HAS(I, INDECLARATION) DO VARIES(I, ENDOF(I + 1, TRUE), "a vector whose size is no constant: write the largest, or GETVEC")
      ENDCASE
   CASE S.CASE:
      IF K(ENDOF(I + 1, TRUE) + 1) = S.TO DO MARK(I, "a range of cases: write each CASE")
$)

// In the BCPL of the Alto a shift binds tighter than a relation.
AND SHIFT(I) BE
$( LET J, E = I - 1, I + 1
   WHILE J > LOW & ~HAS(J, COMMAND) & BINDS(J - 1, RIGHT) DO J := K(J - 1) = RIGHT -> MATE!T(J - 1), J - 1
   IF K(E) = LEFT & MATE!T(E) > E DO E := MATE!T(E)
   WHILE BINDS(E + 1, LEFT) DO E := K(E + 1) = LEFT -> MATE!T(E + 1), E + 1
   IF ISRELATION(J - 1) | ISRELATION(E + 1) DO
   $( BEFORE!T(J) := "("
      CLOSES!T(E) := CLOSES!T(E) + 1
      TURNED := TURNED + 1
   $)
$)

// Whether token I is in an operand of a shift, or a parenthesis of the kind BRACKET that one begins or ends with.
AND BINDS(I, BRACKET) = VALOF SWITCHON OPERATOR(K(I)) INTO
$( CASE LEFT: CASE RIGHT: RESULTIS K(I) = BRACKET & MATE!T(I) > 0
   CASE NAME: CASE NUMBER: CASE CHARACTER: CASE BANG: CASE AT: CASE PLUS: CASE MINUS: CASE STAR: CASE SLASH: CASE S.REM:
      RESULTIS BRACKET = RIGHT | ~HAS(I, COMMAND)
   DEFAULT: RESULTIS FALSE
$)

AND ISRELATION(I) = K(I) = EQUAL | K(I) = RELATION | K(I) = S.EQ | K(I) = S.NE | S.LS <= K(I) <= S.GE

// What is after token I, up to E, has to be a constant.
AND VARIES(I, E, WHY) BE
$( CONSTANTIN(I + 1, E)
   UNLESS SURE DO FOR F = I + 1 TO E IF K(F) = NAME & NAMEHAS(F, VARIABLE) & ~NAMEHAS(F, CONSTANT) DO MARK(I, WHY)
$)

// The last token of an operand that is a name or in parentheses, with its arguments, or -1.
AND OPERANDEND(J) = VALOF
$( LET E = J
   WHILE (K(E) = BANG | K(E) = AT | K(E) = S.RV | K(E) = S.LV) & E = J DO E := E + 1
   TEST K(E) = LEFT & MATE!T(E) > E DO E := MATE!T(E)
   OR UNLESS K(E) = NAME | K(E) = NUMBER RESULTIS -1
   WHILE K(E + 1) = LEFT & ~HAS(E + 1, FRESH) & MATE!T(E + 1) > E DO E := MATE!T(E + 1)
   RESULTIS E
$)

// S OF E is GETFIELD(S,E), and S OF E := V is PUTFIELD(S,E,V).
AND FIELD(I) BE
$( LET E, F = OPERANDEND(I + 1), I - 2
   TEST K(I - 1) ~= NAME | E < 0 | K(F) = BANG | K(F) = PERCENT | K(F) = S.OF | K(F) = DOUBLECOLON | K(F) = AT | K(F) = S.LV DO FIELDBYHAND(I)
   OR TEST K(E + 1) = S.OF | K(E + 1) = DOUBLECOLON DO FIELDBYHAND(I)
   OR TEST K(E + 1) = ASSIGN DO
   $( LET V = ENDOF(E + 2, TRUE)
      TEST ~HAS(I - 1, COMMAND) | UNSURE | K(V + 1) = COMMA DO FIELDBYHAND(I)
      OR
      $( BEFORE!T(I - 1) := "PUTFIELD("
         TURN(I, ",", 0)
         FLAG(I, TIGHT)
         TURN(E + 1, ",", 0)
         FLAG(E + 1, TIGHT)
         CLOSES!T(V) := CLOSES!T(V) + 1
         TAKES(PUTS)
      $)
   $)
   OR TEST K(E + 1) = COMMA & HAS(I - 1, COMMAND) DO FIELDBYHAND(I)
   OR TEST ISBINARY(E + 1) & K(E + 2) = ASSIGN DO FIELDBYHAND(I)
   OR
   $( BEFORE!T(I - 1) := "GETFIELD("
      TURN(I, ",", 0)
      FLAG(I, TIGHT)
      CLOSES!T(E) := CLOSES!T(E) + 1
      TAKES(GETS)
   $)
$)

// The section calls GETFIELD or PUTFIELD.
AND TAKES(WHICH) BE
$( SUFFIX!T(HIGH) := SUFFIX!T(HIGH) | WHICH
   USES!9 := TRUE
$)

AND FIELDBYHAND(I) BE MARK(I, "a field: write GETFIELD(S, E) or PUTFIELD(S, E, V) of library/fields.b")

// RESULTIS E of START's own VALOF is STOP(E), unless E is 0.
AND STATUS(I) BE IF STARTBODY < I < MATE!T(STARTBODY) DO
$( LET E = ENDOF(I + 1, FALSE)
   FOR F = STARTBODY + 1 TO E IF K(F) = S.VALOF UNLESS K(F + 1) = OPEN & MATE!T(F + 1) < I RETURN
   UNLESS CONSTANTIN(I + 1, E) = 0 & SURE DO
   $( TURN(I, "STOP(", 0)
      FLAG(I + 1, TIGHT)
      CLOSES!T(E) := CLOSES!T(E) + 1
   $)
$)

// SLCT size:shift:offset is a word of the three.
AND SELECTOR(I) BE
$( LET N, J, SHIFT = 0, I, 24
   TURN(I, "((", 0)
   FLAG(I + 1, TIGHT)
   $( LET E = J + 1
      E := ENDOF(E, TRUE)
      N := N + 1
      IF N = 3 | K(E + 1) ~= COLON DO
      $( AFTER!T(E) := SHIFT = 0 -> "))", ")<<%N)"
         AFTERVALUE!T(E) := SHIFT
         BREAK
      $)
      TURN(E + 1, N = 1 -> ")<<24 | (", ")<<16 | (", 0)
      J, SHIFT := E + 1, N = 1 -> 16, 0
   $) REPEAT
$)

// ABS E is a call.
AND ABSOLUTE(I) BE
$( LET E = OPERANDEND(I + 1)
   LET OP = E < 0 -> STAR, OPERATOR(K(E + 1))
   // ABS E * 2 is the same in both ways
   IF E > 0 & (OP = STAR | OP = SLASH | OP = S.REM) & K(E + 2) = NUMBER DO OP := OPERATOR(K(E + 3))
   TEST OP = STAR | OP = SLASH | OP = S.REM | OP = BANG | OP = PERCENT | OP = S.OF | OP = DOUBLECOLON DO MARK(I, "ABS: write ABS(E)")
   OR UNLESS K(I + 1) = LEFT & E = MATE!T(I + 1) DO
   $( BEFORE!T(I + 1) := "("
      CLOSES!T(E) := CLOSES!T(E) + 1
      TURNED := TURNED + 1
   $)
   KIND!T(I) := NAME
   KIND!T(FIRST!T(I)) := NAME
   FLAGNAME(I, USED)
$)

// A table with strings is made by a procedure that is put before the definition that it is in.
AND TABLEOF(I) BE
$( LET J, E, STRINGS = I + 1, ?, FALSE
   IF K(J) = OPEN DO
   $( // of Alto: in brackets, with semicolons
      LET M = MATE!T(J)
      TURN(J, "", 0)
      FOR F = J + 1 TO M - 1 DO
      $( IF K(F) = SEMICOLON DO TURN(F, ",", 0)
         IF HAS(F, FRESH) & ENDSOPERAND(F - 1) DO BEFORE!T(F) := ", "
      $)
      IF M > J DO TURN(M, "", 0)
      RETURN
   $)
   // one of a static is set by START
   IF HAS(I, INDECLARATION) RETURN
   E := ENDOF(J, FALSE)
   FOR F = J TO E IF K(F) = STRING DO STRINGS := TRUE
   IF STRINGS DO
   $( LET D = -1
      FOR F = I TO LOW BY -1 IF K(F) = S.LET & HAS(F, OUTER) DO
      $( D := F
         BREAK
      $)
      TEST D < 0 DO MARK(I, "a table of strings: write a procedure with SWITCHON")
      OR
      $( BEFORE!T(I) := "STRINGS.%N("
         TABLECOUNT := TABLECOUNT + 1
         NEWVALUE!T(I) := TABLECOUNT
         CLOSES!T(E) := CLOSES!T(E) + 1
         MATE!T(I) := E
         VALUE!T(I) := VALUE!T(D)
         VALUE!T(D) := I + 1
         TURNED := TURNED + 1
         FOR F = J TO E IF K(F) = STRING & (K(F - 1) = COMMA | F = J) DO NEW!T(F) := "0"
      $)
   $)
$)

// Whether a string has a directive that WRITEF of the kit has not.
AND DIRECTIVESOF(I) BE
$( LET Q, R, STATE = FROM!T(I) + 1, UPTO!T(I) - 1, ' '
   WHILE Q < R DO
   $( LET C = BYTEOF(Q)
      IF STATE = '%' & (UPPER(C) = 'M' | UPPER(C) = 'E' | UPPER(C) = 'G') | STATE = '0' & C = '.' DO
         IF ISFORMAT(I) DO MARK(I - 1, "a directive of messages, or of numbers with a point: WRITEF has none")
      UNLESS C = -1 DO STATE := NEXTSTATE(STATE, C)
      Q := FOUND
   $)
   UNLESS STATE = ' ' DO OTHERDIRECTIVES := TRUE
$)

// Whether the string I is the first argument of WRITEF.
AND ISFORMAT(I) = VALOF
$( UNLESS I - 2 >= LOW & K(I - 1) = LEFT & K(I - 2) = NAME RESULTIS FALSE
   LOADNAME(I - 2)
   RESULTIS IS("WRITEF")
$)

// What comes after a byte of a format: '%' in a directive, '0' after a digit there, 'I' before its width, else a blank.
AND NEXTSTATE(STATE, C) = VALOF
$( IF STATE = ' ' RESULTIS C = '%' -> '%', ' '
   C := UPPER(C)
   IF STATE = '%' & C = 'I' RESULTIS 'I'
   UNLESS STATE = 'I' & ISDIGIT(C) | STATE = '%' & (C = 'S' | C = 'N' | C = 'C' | C = '%') DO OTHERDIRECTIVES := TRUE
   RESULTIS (STATE = '%' | STATE = '0') & ISDIGIT(C) -> '0', ' '
$)

// What can't be in a string or a character constant.
AND QUOTED(I) BE
$( LET Q, R, N = FROM!T(I) + 1, UPTO!T(I) - 1, 0
   IF BYTE(Q - 1) = '$' RETURN
   UNLESS BYTE(R) = BYTE(Q - 1) & R >= Q DO
   $( MARK(I, "a string without its end")
      RETURN
   $)
   WHILE Q < R DO
   $( LET C = BYTEOF(Q)
      IF C = -2 DO MARK(I, "an escape that there is not: set the byte by %")
      IF C = -1 & BYTE(Q) = '*N' DO MARK(I, "a string over two lines: end it by **N, and write the rest by another call")
      UNLESS C = -1 DO N := N + 1
      Q := FOUND
   $)
   IF K(I) = CHARACTER & N ~= 1 DO MARK(I, "a character constant of several bytes: write ('A' << 8) | 'B', or the other way round")
   IF N > 255 DO MARK(I, "a string of more than 255 bytes: write it by two calls")
$)

// ---- the library ----

// The place of WORD among the names that the library has: those of the headers, which are 0 to 12, and those of library/, from 20 on;
// or -1.
AND OLDPLACE() = VALOF
$( LET N = PLACE("START STOP RDCH WRCH NEWLINE WRITES WRITEN WRITED GETBYTE PUTBYTE WRITEF ENDSTREAMCH BYTESPERWORD ")
   IF N >= 0 RESULTIS N
   N := PLACE("UNRDCH READN TERMINATOR RESULT2 WRITEHEX WRITEOCT WRITEX WRITEBIN WRITEU WRITET WRITEZ NEWPAGE CAPITALCH CAPCH COMPCH ")
   IF N >= 0 RESULTIS 20 + N
   N := PLACE("COMPSTRING STR2NUMB PACKSTRING UNPACKSTRING RANDOM MULDIV RANDNO SETSEED ABS GETVEC FREEVEC APTOVEC SPLIT RDITEM RDARGS ")
   IF N >= 0 RESULTIS 35 + N
   N := PLACE("FINDARG FINDINPUT FINDOUTPUT SELECTINPUT SELECTOUTPUT INPUT OUTPUT ENDREAD ENDWRITE REWIND GETFIELD PUTFIELD ABORT TESTFLAGS SAWRCH SARDCH SAWRITEF ")
   IF N >= 0 RESULTIS 50 + N
   RESULTIS -1
$)

// The global of a name of the library.
AND NUMBEROF(N) = VALOF
$( IF N = 0 RESULTIS USESHEAP -> 940, 1
   IF N = 2 RESULTIS USESINPUT -> 900, 3
   IF N = 21 RESULTIS USESTERMINATOR -> 908, 902
   IF N < 20 RESULTIS N + 1
   RESULTIS (TABLE 901, 902, 903, 904, 905, 906, 905, 946, 947, 948, 949, 945, 910, 910, 911,
                   912, 913, 915, 916, 930, 931, 932, 933, 934, 921, 922, 923, 941, 942, 943,
                   944, 950, 951, 952, 953, 954, 955, 956, 957, 958, 936, 937, 959, 939, 4, 3, 11)!(N - 20)
$)

// The file of library/ that has it, by its place in FILENAME, or -1.
AND FILEOF(N) = N < 20 -> -1,
   (TABLE 3, 3, -1, -1, 0, 0, 0, 0, 0, 0, 0, 0, 4, 4, 4,
          4, 4, 5, 5, 7, 7, 7, 7, 7, 8, 8, 6, 10, 10, 10,
          10, 11, 11, 11, 11, 11, 11, 11, 11, 11, 9, 9, 0, 10, -1, -1, -1)!(N - 20)

AND FILENAME(N) = VALOF SWITCHON N INTO
$( CASE 0: RESULTIS "output"
   CASE 1: RESULTIS "write"
   CASE 2: RESULTIS "format"
   CASE 3: RESULTIS "input"
   CASE 4: RESULTIS "characters"
   CASE 5: RESULTIS "strings"
   CASE 6: RESULTIS "vectors"
   CASE 7: RESULTIS "arithmetic"
   CASE 8: RESULTIS "heap"
   CASE 9: RESULTIS "fields"
   CASE 10: RESULTIS "arguments"
   DEFAULT: RESULTIS "streams"
$)

// Whether the name of token I, at place N of the library, is the program's own: some section defines it, or uses it as a variable.
AND ISOWN(I, N) = VALOF
$( FOR J = 0 TO TOKENS - 1 IF K(J) = NAME & FIRST!T(J) = J DO
      IF ~HAS(J, RENAMED) & (HAS(J, DEFINED) | (HAS(J, SET) & N >= 20 & N ~= 22 & N ~= 23)) DO IF SAMENAME(I, J) RESULTIS TRUE
   RESULTIS FALSE
$)

// Which files of the library a section needs.
AND NEED() BE FOR I = LOW TO HIGH - 1 IF K(I) = NAME DO
$( LET N = ?
   IF ISITEM(I) DO
   $( // a header of another library
      LOADNAME(I)
      N := OLDPLACE()
      IF 0 <= N < 11 UNLESS NEWVALUE!T(I) = N + 1 | NEWVALUE!T(I) >= 900 DO OLDHEADER := TRUE
   $)
   IF ISITEM(I) DO UNLESS SETNAMES%NAMEHASH(I, 4095) = 0 DO SETNUMBERS%(NEWVALUE!T(I) & 1023) := 1
   UNLESS FIRST!T(I) = I & ~HAS(I, RENAMED) LOOP
   LOADNAME(I)
   N := OLDPLACE()
   IF PLACE("WRCH WRITES WRITEN WRITED NEWLINE ") >= 0 & (HAS(I, SET) | HAS(I, DEFINED)) DO SETSWRCH := TRUE
   IF IS("INITHEAP") DO OWNHEAP := TRUE
   IF IS("RDCH") & HAS(I, USED) DO USESRDCH := TRUE
   IF IS("UNRDCH") | IS("RESULT2") DO SHOWSREADN := TRUE
   IF IS("TERMINATOR") & (HAS(I, SHARED) | ~HAS(I, DECLARED)) DO USESTERMINATOR := TRUE
   IF (IS("WRITEF") | IS("SAWRITEF")) & (HAS(I, SHARED) | ~HAS(I, DECLARED)) DO USESWRITEF := TRUE
   IF N >= 20 & HAS(I, USED) & (HAS(I, SHARED) | ~HAS(I, DECLARED)) DO
      IF FILEOF(N) >= 0 DO UNLESS ISOWN(I, N) DO USES!(FILEOF(N)) := TRUE
$)

AND SUPPLY() BE
$( LET NEEDSHEADER, LIST, HEADER.AT = FALSE, 0, VALUE!T(HIGH)
   HASFILES := MATE!T(HIGH) < 0
   HASHNAMES()
   FOR I = LOW TO HIGH - 1 IF K(I) = NAME DO
   $( IF ISITEM(I) DO GLOBALITEM(I)
      IF FIRST!T(I) = I DO
      $( LET N = ?
         LOADNAME(I)
         N := OLDPLACE()
         IF NEEDED(I, N) DO
         $( MATE!T(I) := LIST
            LIST := I + 1
            FLAG(I, WANTED)
            TURNED := TURNED + 1
         $)
         IF 0 <= N < 13 & (N = 0 | ~ISDECLARED(I)) & ~HAS(I, SHARED) DO NEEDSHEADER := TRUE
         IF N = 10 & ~ISDECLARED(I) & HEADER.AT >= 0 DO
         $( LOADWORD(FROM!T(HEADER.AT) + 1, UPTO!T(HEADER.AT) - 1)
            UNLESS IS("LIBHDR2") & NEW!T(HEADER.AT) = 0 DO TURN(HEADER.AT, "*"LIBHDR2*"", 0)
         $)
      $)
      UNLESS HAS(FIRST!T(I), WANTED) DO UNDECLARED(I)
      IF NAMEHAS(I, WANTED) | NAMEHAS(I, SHARED) DO NOTE(I)
   $)
   LINKED!T(HIGH) := LIST
   IF SUFFIX!T(HIGH) > 0 DO LIST := 1
   TEST HEADER.AT >= 0 DO UNLESS LIST = 0 DO FLAG(HEADER.AT, INSERT)
   OR IF (NEEDSHEADER | LIST > 0) & LOW < HIGH DO
   $( UNLESS NEEDSHEADER & HASFILES & LIST = 0 DO
      $( FLAG(LOW, HEADER)
         TURNED := TURNED + 1
      $)
   $)
$)

AND HASHNAMES() BE
$( FOR I = 0 TO BUCKETS - 1 DO BUCKET!I := -1
   FOR I = LOW TO HIGH - 1 IF K(I) = NAME & FIRST!T(I) = I DO
   $( LET H = HASH(I)
      LINKED!T(I) := BUCKET!H
      BUCKET!H := I
   $)
$)

// Whether the section declares the name of token I, in this spelling or another.
AND ISDECLARED(I) = ISALIKE(I, DECLARED)

AND ISALIKE(I, F) = VALOF
$( LET J = BUCKET!(HASH(I))
   UNTIL J < 0 DO
   $( IF HAS(J, F) & (J = FIRST!T(I) | ~HAS(J, RENAMED)) DO IF SAMENAME(I, J) RESULTIS TRUE
      J := LINKED!T(J)
   $)
   RESULTIS FALSE
$)

// Whether the section has to declare the name of token I, which is at place N of the library.
AND NEEDED(I, N) = VALOF
$( IF HAS(I, SHARED) | ISALIKE(I, WANTED) RESULTIS FALSE
   IF N = 0 RESULTIS USESHEAP & HAS(I, DEFINED) & ~HAS(I, RENAMED)
   IF HAS(I, RENAMED) RESULTIS FALSE
   IF N = 2 RESULTIS USESINPUT & (HAS(I, DEFINED) | ~ISDECLARED(I))
   IF HAS(I, RENAMED) RESULTIS FALSE
   IF IS("MAXINT") | IS("MININT") | IS("BITSPERWORD") RESULTIS ~ISDECLARED(I)
   RESULTIS N >= 20 & ~ISDECLARED(I)
$)

// A name without declaration. Where a file is missing, the file may have it.
AND UNDECLARED(I) BE
$( LOADNAME(I)
   IF OLDPLACE() >= 0 | ISDECLARED(I) | ISALIKE(I, WANTED) | IS("UG") RETURN
   IF IS("LEVEL") | IS("LONGJUMP") DO MARK(I, "LEVEL and LONGJUMP: return a result that each caller tests, or STOP")
   IF PLACE("CREATECO CALLCO COWAIT RESUMECO DELETECO INITCO CURRCO ") >= 0 DO MARK(I, "no coroutines: write a procedure that keeps its state in a vector")
   IF HASFILES RETURN
   IF PLACE("COPYSTRING CONCAT APPEND ") >= 0 DO MARK(I, "not declared: library/strings.b has one of this name")
   IF PLACE("MOVE MOVEBACK FILL QUICKSORT ") >= 0 DO MARK(I, "not declared: library/vectors.b has one of this name")
   MARK(I, "not declared: it is in no header here")
$)

// What a user has to know where a name of the library is used.
AND NOTE(I) BE
$( IF HAS(I, INDECLARATION) RETURN
   LOADNAME(I)
   IF OLDPLACE() < 20 RETURN
   IF ISOWN(I, OLDPLACE()) RETURN
   IF K(I + 1) = LEFT & K(I + 2) = STRING DO
   $( LET OPENS = IS("FINDINPUT") | IS("FINDOUTPUT")
      LOADWORD(FROM!T(I + 2) + 1, UPTO!T(I + 2) - 1)
      IF OPENS & (IS("****") | IS("**") | IS("SYSIN") | IS("SYSPRINT")) RETURN
      LOADNAME(I)
   $)
   IF IS("FINDINPUT") DO MARK(I, "a named input: tools/pack puts it before the input")
   IF IS("FINDOUTPUT") DO MARK(I, "a named output: tools/unpack writes it to its file")
   IF IS("READN") & USESRDCH & ~USESTERMINATOR & ~SHOWSREADN DO
      MARK(I, "READN leaves the byte after the number, and that of the book reads it: for that one declare READN:908")
   IF IS("RDARGS") DO MARK(I, "the arguments are the first line of the input")
$)

// An item of GLOBAL: a name of the library has its number here; no other name has one of those.
AND GLOBALITEM(I) BE
$( LET N, V, W = ?, NEWVALUE!T(I), ?
   LOADNAME(I)
   N := NAMEHAS(I, RENAMED) -> -1, OLDPLACE()
   W := N < 0 -> -1, NUMBEROF(N)
   IF N = 21 & (V = 902 | V = 908) DO W := V
   TEST N >= 0 & N ~= 11 & N ~= 12 & (N = 0 | ~ISOWN(I, N)) DO UNLESS V = W DO RENUMBER(I, W)
   OR UNLESS V = W DO
   $( IF 1 <= V <= 11 TEST OTHERNUMBERS | ~OLDHEADER DO MARK(I, "a number of the library's: choose another, from 100 on")
      OR RENUMBER(I, 800 + V)
      IF ISMISSING(I) DO MARK(I, "no section here sets it: give its file too")
      IF V > 999 DO MARK(I, "a global is from 0 to 999: choose another number")
      IF 900 <= V <= 960 & ANYFILE() DO MARK(I, "a number of library/: choose another, below 900")
   $)
$)

// Whether a global is called, or is from EXTERNAL and used, and no section sets it.
AND ISMISSING(I) = ~HASFILES & SETNAMES%NAMEHASH(I, 4095) = 0 & SETNUMBERS%(NEWVALUE!T(I) & 1023) = 0 & ((HAS(I, FOREIGN) & NAMEHAS(I, USED)) | NAMEHAS(I, CALLED))

AND ANYFILE() = VALOF
$( FOR N = 0 TO 11 IF USES!N RESULTIS TRUE
   RESULTIS FALSE
$)

AND RENUMBER(I, N) BE
TEST K(I + 1) = COLON | K(I + 1) = EQUAL DO
$( TURN(I + 2, "%N", N)
   FOR J = I + 3 TO MATE!T(I) DO NEW!T(J) := ""
$)
OR AFTERVALUE!T(I) := N

// ---- the second pass ----

AND WRITEALL() BE
$( P := BYTE(0) = 239 -> 3, 0
   TAGCOUNT, HIGH := 0, -1
   FOR I = 0 TO TOKENS - 1 DO
   $( IF I > HIGH DO
      $( HIGH := I
         UNTIL K(HIGH) = DOT | K(HIGH) = ATEND DO HIGH := HIGH + 1
      $)
      IF HAS(I, TIGHT) & ONLYBLANKS(P, FROM!T(I)) DO P := FROM!T(I)
      GAP(FROM!T(I))
      UNLESS I = TOKENS - 1 DO EMIT(I)
      P := UPTO!T(I)
   $)
   IF WRITTEN | HOLDCOUNT > 0 | MARKED | BLANKS DO ENDLINE()
   TEST TURNED > 0 DO WRITEF("// modernise: turned %N*N", TURNED)
   OR IF OLDUPTO > OLDFROM DO
   $( FOR Q = OLDFROM TO OLDUPTO - 1 DO WRCH(BYTE(Q))
      NEWLINE()
   $)
   IF MARKS > 0 DO WRITEF("// modernise: marked %N*N", MARKS)
   IF ANYFILE() DO
   $( WRITES("// modernise: join")
      FOR N = 0 TO 11 IF USES!N DO WRITEF(" library/%S.b", FILENAME(N))
      NEWLINE()
   $)
$)

AND ONLYBLANKS(Q, R) = VALOF
$( FOR I = Q TO R - 1 UNLESS ISBLANK(BYTE(I)) RESULTIS FALSE
   RESULTIS TRUE
$)

// The blanks and comments from P to Q.
AND GAP(Q) BE WHILE P < Q DO
$( LET C, D, R = BYTE(P), BYTE(P + 1), P
   TEST C = '*N' DO
   $( ENDLINE()
      R := P + 1
   $)
   OR TEST ISBLANK(C) DO
   $( UNLESS C = '*C' | C = 26 DO
      $( WRCH(C)
         BLANKS := TRUE
      $)
      R := P + 1
   $)
   OR TEST C = '/' & D = '**' DO
   $( R := COMMENTEND(P)
      BLOCKCOMMENT(R)
   $)
   OR TEST C = '$' DO
   $( R := CONDITIONAL(P)
      HOLD(P, R)
      TURNED := TURNED + 1
   $)
   OR
   $( R := LINEEND(P)
      R := LINECOMMENT(R)
   $)
   P := R
$)

// A comment from P to the end of the line, R. The last lines of an earlier pass are left out. The result is the byte after it.
AND LINECOMMENT(R) = VALOF
$( IF ~WRITTEN & (SAYS(P, "// modernise: turned ") | SAYS(P, "// modernise: marked ") | SAYS(P, "// modernise: join ")) DO
   $( IF SAYS(P, "// modernise: turned") DO OLDFROM, OLDUPTO := P, R
      RESULTIS R < BYTES -> R + 1, R
   $)
   WRITEHELD()
   IF BYTE(P) = '|' DO TURNED := TURNED + 1
   WRITES("//")
   FOR Q = P + 2 TO R - 1 DO
   $( UNLESS BYTE(Q) = '*C' & Q = R - 1 | BYTE(Q) = 26 DO WRCH(BYTE(Q))
      IF SAYS(Q - 2, "// ?? ") DO MARKED := TRUE
   $)
   IF SAYS(P, "|| ?? ") DO MARKED := TRUE
   WRITTEN := TRUE
   RESULTIS R
$)

// Whether the text has S at the byte Q.
AND SAYS(Q, S) = VALOF
$( FOR I = 1 TO S%0 UNLESS BYTE(Q + I - 1) = S%I RESULTIS FALSE
   RESULTIS TRUE
$)

// A comment between brackets, from P to R: each of its lines becomes a comment. One before other symbols goes to the end of the line.
AND BLOCKCOMMENT(R) BE
$( LET FOLLOWED, LINES = ~BLANKLINE(R), FALSE
   FOR Q = P TO R - 1 IF BYTE(Q) = '*N' DO LINES := TRUE
   TURNED := TURNED + 1
   TEST FOLLOWED & (WRITTEN | ~LINES) & HOLDCOUNT < HELD DO HOLD(P, R)
   OR
   $( WRITEHELD()
      WRITES("//")
      WRITELINES(P + 2, R - 2)
      WRITTEN := TRUE
      IF FOLLOWED DO
      $( ENDLINE()
         WHILE ISBLANK(BYTE(R)) DO R := R + 1
      $)
   $)
$)

// The bytes from Q to R - 1, each line after the first as a comment of its own.
AND WRITELINES(Q, R) BE FOR I = Q TO R - 1 DO
TEST SAYS(I, "// ?? ") | ((I = Q | BYTE(I - 1) = '*N') & SAYS(I, " ?? ")) DO
$( MARKED := TRUE
   WRCH(BYTE(I))
$)
OR TEST BYTE(I) = '*N' DO
$( WRITTEN := TRUE
   ENDLINE()
   WRITES("//")
$)
OR UNLESS BYTE(I) = '*C' | BYTE(I) = 26 DO WRCH(BYTE(I))

// The bytes from Q to R - 1 become a comment at the end of the line.
AND HOLD(Q, R) BE
$( IF HOLDCOUNT >= HELD DO WRITEHELD()
   HOLDS!(2 * HOLDCOUNT), HOLDS!(2 * HOLDCOUNT + 1) := Q, R
   HOLDCOUNT := HOLDCOUNT + 1
$)

AND WRITEHELD() BE
$( LET N = HOLDCOUNT
   HOLDCOUNT := 0
   FOR I = 0 TO N - 1 DO
   $( LET Q, R = HOLDS!(2 * I), HOLDS!(2 * I + 1)
      IF WRITTEN DO WRCH('*S')
      WRITES("//")
      TEST BYTE(Q) = '/' & BYTE(Q + 1) = '**' DO WRITELINES(Q + 2, R - 2)
      OR
      $( WRCH('*S')
         WRITELINES(Q, R)
      $)
      WRITTEN := TRUE
   $)
   IF N > 0 & WRITTEN DO WRCH('*S')
$)

// Ends a line.
AND ENDLINE() BE
$( IF HOLDCOUNT > 0 DO
   $( LET N = HOLDCOUNT
      HOLDCOUNT := 0
      FOR I = 0 TO N - 1 DO
      $( LET Q, R = HOLDS!(2 * I), HOLDS!(2 * I + 1)
         IF WRITTEN DO WRCH('*S')
         WRITES("//")
         TEST BYTE(Q) = '/' & BYTE(Q + 1) = '**' DO WRITELINES(Q + 2, R - 2)
         OR
         $( WRCH('*S')
            WRITELINES(Q, R)
         $)
         WRITTEN := TRUE
      $)
   $)
   IF WHY ~= 0 & ~MARKED DO
   $( WRITES(" // ?? ")
      WRITES(WHY)
      MARKED := TRUE
   $)
   IF MARKED DO MARKS := MARKS + 1
   WHY, MARKED, WRITTEN, BLANKS := 0, FALSE, FALSE, FALSE
   NEWLINE()
$)

AND EMIT(I) BE
$( LET V = T(I)
   IF WHY = 0 DO WHY := REASON!V
   IF HAS(I, HEADER) DO
   $( WRITES("GET *"LIBHDR2*"")
      INSERTIONS()
      WRCH('*S')
      WRITTEN := TRUE
   $)
   IF HAS(I, ASCOMMENT) DO
   $( HOLD(FROM!V, UPTO!T(I + 1))
      UPTO!V := FROM!T(I + 1)
      IF K(I + 2) = SEMICOLON & NEW!T(I + 2) = 0 DO NEW!T(I + 2) := ""
      RETURN
   $)
   IF KIND!V = DROPPED RETURN
   IF KIND!V = S.LET & VALUE!V > 0 DO STRINGTABLES(VALUE!V - 1)
   IF HAS(I, PROLOGUE) DO SETTINGS(VALUE!V - 1)
   IF KIND!V = CLOSE | KIND!V = S.CASE | KIND!V = S.DEFAULT DO FOR J = 1 TO SUFFIX!V DO WRITES("$) ")
   UNLESS BEFORE!V = 0 DO WRITEF(BEFORE!V, NEWVALUE!V)
   TEST NEW!V = 0 DO COPY(I) OR WRITEF(NEW!V, NEWVALUE!V)
   WRITTEN := TRUE
   IF HAS(I, SETLATER) DO
   $( WRITES(" ?; ")
      COPY(MATE!V)
      WRITES(" :=")
   $)
   IF HAS(I, OPERATES) DO
   $( WRCH('*S')
      COPYRANGE(VALUE!V, I - 2)
      WRCH('*S')
      COPY(I - 1)
      IF MATE!V > I + 1 DO
      $( WRITES(" (")
         WHILE ISBLANK(BYTE(UPTO!V)) DO UPTO!V := UPTO!V + 1
      $)
   $)
   UNLESS AFTER!V = 0 DO
   $( WRITEF(AFTER!V, AFTERVALUE!V)
      IF KIND!V = CLOSE DO APARTFROM(UPTO!V)
   $)
   IF HAS(I, SUCCESSOR) DO
   $( WRCH('=')
      COPY(MATE!V)
      WRITES("+1")
   $)
   FOR J = 1 TO CLOSES!V DO WRCH(')')
   IF HAS(I, JUMPS) DO WRITEJUMPS(AFTERVALUE!V)
   IF HAS(I, INSERT) DO
   $( INSERTIONS()
      APARTFROM(UPTO!V)
   $)
$)

// After a closing bracket that was inserted: what follows it at Q is not its tag.
AND APARTFROM(Q) BE IF ISLETTER(BYTE(Q)) | ISDIGIT(BYTE(Q)) DO WRCH('*S')

// The cases of the GOTO at I.
AND WRITEJUMPS(I) BE
$( LOW := SECTIONAT
   WRITES(" INTO $(")
   FOR J = LOW TO HIGH - 1 IF K(J) = NAME & NAMEHAS(J, VALUED) & HAS(J, COMMAND) & K(J + 1) = COLON DO IF LABELIN(J, I) DO
   $( WRITEF(" CASE %N: GOTO ", VALUE!T(FIRST!T(J)))
      WRITENAME(J)
      WRCH(';')
   $)
   WRITES(" $)")
$)

// What the section takes from the library.
AND INSERTIONS() BE
$( LET LIST, GLOBALS, CONSTANTS = LINKED!T(HIGH) - 1, 0, 0
   UNTIL LIST < 0 DO
   $( LET N = ?
      LOADNAME(LIST)
      N := OLDPLACE()
      UNLESS N < 0 DO
      $( WRITES(GLOBALS = 0 -> " GLOBAL $( ", "; ")
         COPY(LIST)
         WRITEF(":%N", NUMBEROF(N))
         GLOBALS := GLOBALS + 1
      $)
      IF N < 0 DO CONSTANTS := CONSTANTS + 1
      LIST := MATE!T(LIST) - 1
   $)
   UNLESS (SUFFIX!T(HIGH) & GETS) = 0 DO
   $( WRITES(GLOBALS = 0 -> " GLOBAL $( GETFIELD:936", "; GETFIELD:936")
      GLOBALS := GLOBALS + 1
   $)
   UNLESS (SUFFIX!T(HIGH) & PUTS) = 0 DO
   $( WRITES(GLOBALS = 0 -> " GLOBAL $( PUTFIELD:937", "; PUTFIELD:937")
      GLOBALS := GLOBALS + 1
   $)
   IF GLOBALS > 0 DO WRITES(" $)")
   IF CONSTANTS = 0 RETURN
   WRITES(" MANIFEST $( ")
   LIST := LINKED!T(HIGH) - 1
   UNTIL LIST < 0 DO
   $( LOADNAME(LIST)
      IF OLDPLACE() < 0 DO
      $( COPY(LIST)
         LOADNAME(LIST)
         WRITES(IS("MAXINT") -> "=#X7FFFFFFF", IS("MININT") -> "=#X80000000", "=32")
         CONSTANTS := CONSTANTS - 1
         WRITES(CONSTANTS > 0 -> "; ", " $)")
      $)
      LIST := MATE!T(LIST) - 1
   $)
$)

// The procedures that make the tables with strings of a definition: the TABLE at I, and those after it in the list.
AND STRINGTABLES(I) BE UNTIL I < 0 DO
$( LET V, N, F, FIRSTSTRING = T(I), 0, I + 1, -1
   WRITEF("LET STRINGS.%N(STRINGS.T) = VALOF $( ", NEWVALUE!V)
   UNTIL F > MATE!V DO
   $( LET E = ENDOF(F, TRUE)
      IF K(F) = STRING & E = F DO
      $( TEST FIRSTSTRING < 0 DO WRITEF("IF STRINGS.T!%N = 0 DO $( STRINGS.T!%N := ", N, N) OR WRITEF("; STRINGS.T!%N := ", N)
         FIRSTSTRING := N
         COPY(F)
      $)
      N, F := N + 1, E + 2
   $)
   WRITES(" $); RESULTIS STRINGS.T $)*N")
   I := VALUE!V - 1
$)

// The statics that START sets, before its body: the vectors are its variables.
AND SETTINGS(I) BE
$( LET J = I
   WRITES("$( ")
   UNTIL J < 0 DO
   $( IF K(J + 1) = S.VEC DO
      $( WRITES("LET ")
         COPY(J - 1)
         WRITES(".VEC = ")
         COPYRANGE(J + 1, MATE!T(J))
         WRITES("; ")
      $)
      J := LINKED!T(J)
   $)
   J := I
   UNTIL J < 0 DO
   $( COPY(J - 1)
      WRITES(" := ")
      TEST K(J + 1) = S.VEC DO
      $( COPY(J - 1)
         WRITES(".VEC")
      $)
      OR TEST K(J + 1) = S.TABLE DO SETTABLE(J) OR COPYRANGE(J + 1, MATE!T(J))
      WRITES("; ")
      J := LINKED!T(J)
   $)
$)

// The table of the static whose sign is J, and then its strings.
AND SETTABLE(J) BE
$( LET F, N = J + 2, 0
   FOR I = J + 1 TO MATE!T(J) DO
   $( IF FROM!T(I) > UPTO!T(I - 1) & I > J + 1 DO WRCH('*S')
      TEST K(I) = STRING DO WRCH('0') OR COPY(I)
   $)
   UNTIL F > MATE!T(J) DO
   $( LET E = ENDOF(F, TRUE)
      IF K(F) = STRING & E = F DO
      $( WRITES("; ")
         COPY(J - 1)
         WRITEF("!%N := ", N)
         COPY(F)
      $)
      N, F := N + 1, E + 2
   $)
$)

AND COPYRANGE(I, J) BE FOR F = I TO J DO
$( IF F > I & FROM!T(F) > UPTO!T(F - 1) DO WRCH('*S')
   COPY(F)
$)

// Token I in its spelling here.
AND COPY(I) BE
$( LET V = T(I)
   LET Q, R = FROM!V, UPTO!V
   LET S = SPELLING(I)
   TEST S ~= 0 DO
   $( WRITES(S)
      TURNED := TURNED + 1
   $)
   OR SWITCHON KIND!V INTO
   $( CASE NAME: WRITENAME(I); ENDCASE
      CASE NUMBER: WRITENUMBER(I); ENDCASE
      CASE STRING: CASE CHARACTER: WRITEQUOTED(I); ENDCASE
      CASE OPEN: CASE CLOSE: WRITEBRACKET(I); ENDCASE
      CASE DOT: IF ISINNAME(BYTE(Q - 1)) DO WRCH('*S') // and on
      DEFAULT: WRITEBYTES(Q, R)
   $)
$)

AND WRITEBYTES(Q, R) BE FOR P = Q TO R - 1 DO WRCH(BYTE(P))

// The spelling here of a sign or a word that has another one, or 0.
AND SPELLING(I) = VALOF
$( LET C = BYTE(FROM!T(I))
   SWITCHON K(I) INTO
   $( CASE S.LV: RESULTIS "@"
      CASE S.RV: RESULTIS "!"
      CASE S.LS: CASE 88: RESULTIS "<"
      CASE 89: CASE 90: RESULTIS ">"
      CASE 91: RESULTIS "<="
      CASE S.GE: RESULTIS ">="
      CASE S.LSHIFT: RESULTIS "<<"
      CASE S.RSHIFT: RESULTIS ">>"
      CASE S.LOGAND: RESULTIS "&"
      CASE S.LOGOR: RESULTIS "|"
      CASE S.MOD: RESULTIS "REM"
      CASE S.XOR: RESULTIS "NEQV"
      CASE S.IFSO: RESULTIS "THEN"
      CASE S.IFNOT: RESULTIS "ELSE"
      CASE S.NIL: RESULTIS "?"
      CASE AMPERSAND: IF C = '/' RESULTIS "&"
         ENDCASE
      CASE BAR: UNLESS C = '|' RESULTIS "|"
         ENDCASE
      CASE RELATION: IF C = '\' RESULTIS "~="
         ENDCASE
      CASE TILDE: IF C = '\' RESULTIS "~"
         ENDCASE
      CASE ASSIGN: UNLESS C = ':' RESULTIS ":="
         ENDCASE
      CASE AT: IF ALTO RESULTIS "!"
         ENDCASE
      CASE LEFT: IF C = '[' RESULTIS "("
         ENDCASE
      CASE RIGHT: IF C = ']' RESULTIS ")"
   $)
   RESULTIS 0
$)

AND WRITENAME(I) BE
$( LET V, N = T(FIRST!T(I)), 0
   LET LAST = (FLAGS!V & RENAMED) ~= 0 & UPTO!V - FROM!V > 240 -> FROM!V + 240, UPTO!V
   FOR Q = FROM!V TO LAST - 1 DO
   $( IF BYTE(Q) = '_' DO N := 1
      WRCH(BYTE(Q) = '_' -> '.', BYTE(Q))
   $)
   UNLESS (FLAGS!V & RENAMED) = 0 DO WRITEF(".%N", SUFFIX!V)
   TURNED := TURNED + N
$)

// A number without underlines, in octal or hexadecimal if it was in binary.
AND WRITENUMBER(I) BE
$( LET Q, R = FROM!T(I), UPTO!T(I)
   LET C = BYTE(Q) = '#' -> UPPER(BYTE(Q + 1)), 0
   TEST C = 'B' DO
   $( LET N, STARTED = NUMBERAT(I), FALSE
      WRITES("#X")
      FOR S = 28 TO 0 BY -4 DO
      $( LET D = (N >> S) & 15
         IF D > 0 | S = 0 DO STARTED := TRUE
         IF STARTED DO WRCH("0123456789ABCDEF"%(D + 1))
      $)
      TURNED := TURNED + 1
   $)
   OR
   $( IF C = 'O' DO
      $( WRCH('#')
         Q := Q + 2
         TURNED := TURNED + 1
      $)
      FOR P = Q TO R - 1 TEST BYTE(P) = '_' DO TURNED := TURNED + 1 OR WRCH(BYTE(P))
   $)
$)

// A bracket of a section. One without a tag is not followed by a letter or digit at once, and a section with a tag is closed by its tag.
AND WRITEBRACKET(I) BE
$( LET TAG = I
   UNLESS BYTE(FROM!T(I)) = '$' DO TURNED := TURNED + 1
   WRITES(K(I) = OPEN -> "$(", "$)")
   IF K(I) = CLOSE & ~TAGGED(I) & MATE!T(I) > 0 DO
   $( TAG := MATE!T(I)
      IF TAGGED(TAG) DO TURNED := TURNED + 1
   $)
   FOR P = TAGAT(TAG) TO UPTO!T(TAG) - 1 DO WRCH(BYTE(P) = '_' -> '.', BYTE(P))
   UNLESS TAGGED(TAG) DO IF ISLETTER(BYTE(UPTO!T(I))) | ISDIGIT(BYTE(UPTO!T(I))) DO WRCH('*S')
$)

AND WRITEQUOTED(I) BE
$( LET Q, R = FROM!T(I) + 1, UPTO!T(I)
   LET QUOTE = BYTE(Q - 1)
   IF QUOTE = '$' DO
   $( WRCH('*'')
      IF BYTE(Q) = '*'' | BYTE(Q) = '"' DO WRCH('**')
      WRITEBYTES(Q, R)
      WRCH('*'')
      TURNED := TURNED + 1
      RETURN
   $)
   // one without its end, or with a line's end in it, is copied as it is
   UNLESS REASON!T(I) = 0 DO
   $( WRITEBYTES(Q - 1, R)
      RETURN
   $)
   IF SUFFIX!T(I) > 0 DO QUOTE, TURNED := '"', TURNED + 1
   WRCH(QUOTE)
   R := R - 1
   WHILE Q < R DO
   $( LET C, D = BYTEOF(Q), UPPER(BYTE(Q + 1))
      TEST BYTE(Q) = '"' & QUOTE = '"' DO WRITES("***"")
      OR TEST BYTE(Q) ~= '**' DO WRCH(C)
      OR TEST C < 0 | ISDIGIT(D) | D = 'X' | D = 'D' | D = 'E' DO
      $( IF C >= 0 DO WRITEBYTE(C)
         TURNED := TURNED + 1
      $)
      OR WRITEBYTES(Q, FOUND)
      Q := FOUND
   $)
   WRCH(QUOTE)
$)

// A byte in a string or a character constant.
AND WRITEBYTE(C) BE SWITCHON C INTO
$( CASE '*N': WRITES("**N"); ENDCASE
   CASE '*C': WRITES("**C"); ENDCASE
   CASE '**': WRITES("****"); ENDCASE
   CASE '"': WRITES("***""); ENDCASE
   CASE '*'': WRITES("***'"); ENDCASE
   DEFAULT: WRCH(C)
$)
