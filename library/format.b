// format.b: WRITEF with the directives of other compilers. It replaces WRITEF of the kit. It needs output.b.
GET "LIBHDR2"
GLOBAL $( WRITEHEX:905; WRITEOCT:906; WRITEFX:935; WRITEBIN:946; WRITEU:947; WRITET:948; WRITEZ:949 $)

// WRITEF(F, A, B, ..) writes the string F, with twenty arguments at most. Each % and the letter after it take the next argument:
//    %S a string        %N a number       %C a byte
//    %I a number        %U without sign   %Z with zeros before it        %D is %I
//    %X hexadecimal     %O octal          %B binary                      %T a string with blanks after it
// The width of the last two lines is the byte after the letter: 0 to 9, or A to Z for 10 to 35; or a number before the letter, as
// in %12I. Without it, it is 0, and as wide as the number for %X, %O and %B. %F takes a string that is a format, with the arguments
// after it, and %P\one\more\ writes one of the two parts, by whether the argument is 1. %+ or %$ leaves out an argument, and %- goes
// back to the one before. A % before another byte writes that byte.
LET WRITEF(F, A, B, C, D, E, G, H, I, J, K, L, M, N, O, P, Q, R, S, T, U) BE FORMATTED(F, @A)

// WRITEFX is WRITEF.
AND WRITEFX(F, A, B, C, D, E, G, H, I, J, K, L, M, N, O, P, Q, R, S, T, U) BE FORMATTED(F, @A)

// Writes F with the arguments from A on, and gives the address of the argument after the last one that it takes.
AND FORMATTED(F, A) = VALOF
$( LET P = 1
   WHILE P <= F%0 DO
   $( TEST F%P = '%' & P < F%0 DO
      $( LET WIDTH, GIVEN, LETTER = 0, FALSE, ?
         P := P + 1
         WHILE '0' <= F%P <= '9' & P < F%0 DO
         $( WIDTH, GIVEN, P := WIDTH < 255 -> WIDTH * 10 + F%P - '0', WIDTH, TRUE, P + 1
         $)
         LETTER := CAPITAL(F%P)
         P := P + 1
         SWITCHON LETTER INTO
         $( CASE 'S': WRITES(!A); ENDCASE
            CASE 'N': WRITED(!A, WIDTH); ENDCASE
            CASE 'C': WRCH(!A); ENDCASE
            CASE 'F': A := FORMATTED(!A, A + 1); LOOP
            CASE '+': CASE '$': ENDCASE
            CASE '-': A := A - 1; LOOP
            CASE 'P': P := PLURAL(F, P, !A); ENDCASE
            CASE 'I': CASE 'D': CASE 'U': CASE 'Z': CASE 'X': CASE 'O': CASE 'B': CASE 'T':
               UNLESS GIVEN | P > F%0 DO
               $( LET N = WIDTHOF(F%P)
                  IF N >= 0 DO WIDTH, GIVEN, P := N, TRUE, P + 1
               $)
               FIELD(LETTER, !A, GIVEN -> WIDTH, -1)
               ENDCASE
            DEFAULT: WRCH(F%(P - 1)); LOOP
         $)
         A := A + 1
      $)
      OR
      $( WRCH(F%P)
         P := P + 1
      $)
   $)
   RESULTIS A
$)

AND CAPITAL(C) = 'a' <= C <= 'z' -> C - 'a' + 'A', C

// The width that a byte says, or -1.
AND WIDTHOF(C) = VALOF
$( C := CAPITAL(C)
   RESULTIS '0' <= C <= '9' -> C - '0', 'A' <= C <= 'Z' -> C - 'A' + 10, -1
$)

// X in a field; a width of -1 is none.
AND FIELD(LETTER, X, WIDTH) BE SWITCHON LETTER INTO
$( CASE 'I': CASE 'D': WRITED(X, WIDTH); ENDCASE
   CASE 'U': WRITEU(X, WIDTH); ENDCASE
   CASE 'Z': WRITEZ(X, WIDTH); ENDCASE
   CASE 'X': WRITEHEX(X, WIDTH < 0 -> PLACES(X, 4), WIDTH); ENDCASE
   CASE 'O': WRITEOCT(X, WIDTH < 0 -> PLACES(X, 3), WIDTH); ENDCASE
   CASE 'B': WRITEBIN(X, WIDTH < 0 -> PLACES(X, 1), WIDTH); ENDCASE
   CASE 'T': WRITET(X, WIDTH); ENDCASE
$)

// The number of digits of X, each of so many bits.
AND PLACES(X, BITS) = VALOF
$( LET N = 0
   $( N, X := N + 1, X >> BITS
   $) REPEATUNTIL X = 0
   RESULTIS N
$)

// The parts of %P from the byte P of F on; an s where there are none. Gives the byte after them.
AND PLURAL(F, P, N) = VALOF
$( LET PART = 1
   UNLESS P <= F%0 DO
   $( UNLESS N = 1 DO WRCH('s')
      RESULTIS P
   $)
   UNLESS F%P = '\' DO
   $( UNLESS N = 1 DO WRCH('s')
      RESULTIS P
   $)
   P := P + 1
   WHILE P <= F%0 & PART <= 2 DO
   $( TEST F%P = '\' DO PART := PART + 1 OR IF (PART = 1) = (N = 1) DO WRCH(F%P)
      P := P + 1
   $)
   RESULTIS P
$)
.
