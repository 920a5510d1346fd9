// ---- help: the forms of the language, each with an example that can be tried

const FORMS = [
  ["A program", "GET \"LIBHDR\" gives the names of the library, and LIBHDR2 those and WRITEF. The run begins with START.", "GET \"LIBHDR\"\n\nLET START() BE WRITES(\"Hello*N\")\n"],
  ["Variables", "LET declares variables with their first values. A word has 32 bits and no type.", "GET \"LIBHDR\"\n\nLET START() BE\n$( LET A, B = 6, 7\n   A := A * B\n   WRITEN(A)\n   NEWLINE()\n$)\n"],
  ["Constants", "MANIFEST names constants; their values are known before the run.", "GET \"LIBHDR2\"\n\nMANIFEST $( SIZE = 10; LAST = SIZE - 1 $)\n\nLET START() BE WRITEF(\"%N words, the last is %N*N\", SIZE, LAST)\n"],
  ["Static words", "STATIC declares words that last for the whole run.", "GET \"LIBHDR\"\n\nSTATIC $( COUNT = 0 $)\n\nLET TICK() BE COUNT := COUNT + 1\n\nLET START() BE\n$( FOR I = 1 TO 5 DO TICK()\n   WRITEN(COUNT)\n   NEWLINE()\n$)\n"],
  ["Globals", "GLOBAL gives names to numbered words that all sections share. Numbers from 100 on are free.", "GET \"LIBHDR\"\n\nGLOBAL $( TOTAL : 100 $)\n\nLET ADD(N) BE TOTAL := TOTAL + N\n\nLET START() BE\n$( TOTAL := 0\n   ADD(40)\n   ADD(2)\n   WRITEN(TOTAL)\n   NEWLINE()\n$)\n"],
  ["Functions", "A function is an expression with arguments. A condition -> chooses between two values.", "GET \"LIBHDR\"\n\nLET FACT(N) = N = 0 -> 1, N * FACT(N - 1)\n\nLET START() BE\n$( WRITEN(FACT(5))\n   NEWLINE()\n$)\n"],
  ["Routines", "A routine is a command with arguments. RETURN leaves it.", "GET \"LIBHDR\"\n\nLET STARS(N) BE\n$( IF N <= 0 RETURN\n   WRCH('**')\n   STARS(N - 1)\n$)\n\nLET START() BE\n$( STARS(7)\n   NEWLINE()\n$)\n"],
  ["VALOF and RESULTIS", "VALOF makes a value of commands; RESULTIS gives it.", "GET \"LIBHDR\"\n\nLET POWER(B, N) = VALOF\n$( LET R = 1\n   FOR I = 1 TO N DO R := R * B\n   RESULTIS R\n$)\n\nLET START() BE\n$( WRITEN(POWER(2, 10))\n   NEWLINE()\n$)\n"],
  ["IF, UNLESS and TEST", "IF and UNLESS do a command or not; TEST .. THEN .. OR does one of two.", "GET \"LIBHDR2\"\n\nLET START() BE\n  FOR I = 1 TO 6 DO\n    TEST I REM 2 = 0 THEN WRITEF(\"%N is even*N\", I)\n    OR WRITEF(\"%N is odd*N\", I)\n"],
  ["WHILE and UNTIL", "The condition is tested before each turn.", "GET \"LIBHDR2\"\n\nLET START() BE\n$( LET N = 27\n   UNTIL N = 1 DO\n   $( TEST N REM 2 = 0 THEN N := N / 2 OR N := 3 * N + 1\n      WRITEF(\"%N \", N)\n   $)\n   NEWLINE()\n$)\n"],
  ["REPEAT", "REPEAT has no condition; REPEATWHILE and REPEATUNTIL test it after each turn. BREAK leaves a loop, LOOP begins its next turn.", "GET \"LIBHDR\"\n\nLET START() BE\n$( LET N = 1\n   N := 2 * N REPEATUNTIL N > 1000\n   WRITEN(N)\n   NEWLINE()\n$)\n"],
  ["FOR", "The variable of FOR is its own; BY gives the step, a constant.", "GET \"LIBHDR2\"\n\nLET START() BE\n$( FOR I = 10 TO 0 BY -2 DO WRITEF(\"%N \", I)\n   NEWLINE()\n$)\n"],
  ["SWITCHON", "CASE labels are constants; ENDCASE leaves; DEFAULT is for all others.", "GET \"LIBHDR\"\n\nLET START() BE\n  FOR I = 1 TO 4 DO\n    SWITCHON I INTO\n    $( CASE 1: WRITES(\"one*N\"); ENDCASE\n       CASE 2: CASE 3: WRITES(\"a few*N\"); ENDCASE\n       DEFAULT: WRITES(\"many*N\")\n    $)\n"],
  ["Vectors", "VEC n gives n + 1 words; V!i is one of them.", "GET \"LIBHDR2\"\n\nLET START() BE\n$( LET V = VEC 9\n   FOR I = 0 TO 9 DO V!I := I * I\n   FOR I = 0 TO 9 DO WRITEF(\"%I4\", V!I)\n   NEWLINE()\n$)\n"],
  ["Tables", "TABLE is a vector with given words.", "GET \"LIBHDR2\"\n\nLET START() BE\n$( LET T = TABLE 2, 3, 5, 7, 11\n   FOR I = 0 TO 4 DO WRITEF(\"%N \", T!I)\n   NEWLINE()\n$)\n"],
  ["Strings", "S%0 is the length, S%1 the first byte. *N is a new line, *\" a quote, ** a star.", "GET \"LIBHDR\"\n\nLET START() BE\n$( LET S = \"BCPL\"\n   FOR I = S%0 TO 1 BY -1 DO WRCH(S%I)\n   NEWLINE()\n$)\n"],
  ["Addresses", "@ gives the address of a variable; !P is the word at an address.", "GET \"LIBHDR\"\n\nLET DOUBLE(P) BE !P := 2 * !P\n\nLET START() BE\n$( LET X = 21\n   DOUBLE(@X)\n   WRITEN(X)\n   NEWLINE()\n$)\n"],
  ["Operators", "* / REM + - ; = ~= < > <= >= ; << >> ; NOT & | EQV NEQV. TRUE is -1 and FALSE 0.", "GET \"LIBHDR2\"\n\nLET START() BE\n$( WRITEF(\"%N %N %N*N\", 7 / 2, 7 REM 2, 1 << 4)\n   WRITEF(\"%N %N*N\", 6 & 3, 6 NEQV 3)\n   WRITEF(\"%N*N\", 1 < 2)\n$)\n"],
  ["Labels and GOTO", "A label is a name with a colon in the same procedure.", "GET \"LIBHDR\"\n\nLET START() BE\n$( LET I = 0\nAGAIN:\n   I := I + 1\n   WRITEN(I)\n   IF I < 5 GOTO AGAIN\n   NEWLINE()\n$)\n"],
  ["Procedures together", "AND declares procedures that may call one another.", "GET \"LIBHDR\"\n\nLET EVEN(N) = N = 0 -> TRUE, ODD(N - 1)\nAND ODD(N) = N = 0 -> FALSE, EVEN(N - 1)\n\nLET START() BE WRITES(EVEN(10) -> \"even*N\", \"odd*N\")\n"],
  ["Input", "RDCH reads a byte; ENDSTREAMCH comes at the end.", "GET \"LIBHDR2\"\n\nLET START() BE\n$( LET N, C = 0, RDCH()\n   UNTIL C = ENDSTREAMCH DO\n   $( N := N + 1\n      C := RDCH()\n   $)\n   WRITEF(\"%N bytes*N\", N)\n$)\n"],
  ["The end", "FINISH ends the run with 0, STOP(n) with n.", "GET \"LIBHDR\"\n\nLET START() BE\n$( WRITES(\"Bye*N\")\n   STOP(3)\n   WRITES(\"never written*N\")\n$)\n"],
];

function buildHelp() {
  const parts = FORMS.map(([name, words, example]) => {
    const part = document.createElement("section");
    const title = document.createElement("h2"), text = document.createElement("p"), code = document.createElement("pre"), button = document.createElement("button");
    title.textContent = name;
    text.textContent = words;
    code.textContent = example;
    code.tabIndex = 0;
    button.textContent = "Try it";
    button.setAttribute("aria-label", `Try the example of: ${name}`);
    button.onclick = () => replaceProgram(example, "");
    part.append(title, text, code, button);
    return part;
  });
  const keys = document.createElement("p");
  keys.textContent = "Ctrl+Enter runs the program. In the tables the arrow keys choose a row, and what belongs to it lights up. F9 marks a line. In Step: left and right do a machine step; s goes to the next line, n over a call, o out of it, b back, c to a mark.";
  $("help").replaceChildren(keys, ...parts);
}
