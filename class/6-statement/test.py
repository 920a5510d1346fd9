"""Exercise 6: programs in the small language go through the compiler that is handed in; the kit says what they have to write. Where a
program has TIMES, the same program is written with the FOR of BCPL, `FOR T.T = 1 TO`, for the kit."""
import re
import tempfile

from grading import Part, asked, command_of, each, first_difference, interpret, run

START = 'GET "LIBHDR"\nLET F(N) = N * N\nLET G(N) BE $( TEST N > 0 DO $( WRITEN(N); G(N - 1) $) OR NEWLINE() $)\n%sLET START() BE\n$( LET A, I = 3, 0; LET V = VEC 9; %s $)\n'
UNTIL = ["UNTIL I = 5 DO $( WRITEN(I); I := I + 1 $)", "UNTIL TRUE DO WRITEN(1); WRITEN(2)", "UNTIL I >= 3 | A = 0 DO I := I + 1; WRITEN(I)",
         "UNTIL I > 2 & A > 4 DO $( I := I + 1; A := A + 1 $); WRITEN(I); WRITEN(A)", "UNTIL I = 3 DO $( LET J = 0; UNTIL J = I DO $( WRITEN(J); J := J + 1 $); I := I + 1; NEWLINE() $)",
         "UNTIL RDCH() = 'c' DO I := I + 1; WRITEN(I)", "WRITEN(VALOF $( UNTIL FALSE DO $( I := I + 1; IF F(I) > 50 DO RESULTIS I $) $))",
         "IF A = 3 DO UNTIL I = 2 DO I := I + 1; WRITEN(I)", "UNTIL NOT (I < 2) DO I := I + 1; WRITEN(I)"]
REPEATUNTIL = ["$( WRITEN(I); I := I + 1 $) REPEATUNTIL I = 4", "WRITEN(7) REPEATUNTIL TRUE", "I := I + 1 REPEATUNTIL I > 9 | F(I) = 16; WRITEN(I)",
               "$( LET J = I; WRITEN(J); I := J + 2 $) REPEATUNTIL I > 5 & A = 3; WRITEN(I)", "$( I := I + 1 REPEATUNTIL I REM 3 = 0; WRITEN(I) $) REPEATUNTIL I > 8",
               "WRCH(RDCH()) REPEATUNTIL RDCH() = -1", "I := I + 1 REPEATUNTIL I = 3 REPEATUNTIL I = 3; WRITEN(I)", "V!I := F(I) REPEATUNTIL V!0 = 0; WRITEN(V!0)",
               "UNTIL I > 3 DO I := I + 2 REPEATUNTIL I > 6; WRITEN(I)", "WRITEN(VALOF $( I := I + 1; IF I = 6 DO RESULTIS I $) REPEATUNTIL FALSE)"]
TIMES = ["TIMES 3 DO WRITEN(I)", "TIMES 0 DO WRITEN(1); WRITEN(2)", "TIMES -2 DO WRITEN(1); WRITEN(2)", "TIMES A DO $( A := A + 1; WRITEN(A) $)",
         "TIMES F(2) DO $( I := I + 1; V!I := F(I) $); WRITEN(V!4)", "TIMES A DO TIMES A DO $( I := I + 1; WRITEN(I) $)",
         "TIMES 2 DO $( LET X, Y = I + 1, 5; TIMES Y DO I := I + X; WRITEN(I); WRITEN(X) $)", "TIMES 2 DO G(3)",
         "WRITEN(VALOF $( TIMES 9 DO $( I := I + 2; IF I > 7 DO RESULTIS I $) $))", "TIMES VALOF $( WRITEN(8); RESULTIS 2 $) DO WRITEN(9)",
         "TIMES A + 1 DO I := I + A; WRITEN(I); TIMES A DO I := I - 1; WRITEN(I)", "I := 1 + VALOF $( TIMES 3 DO A := A + 1; RESULTIS A $); WRITEN(I)",
         "H(4); WRITEN(A)"]
HELPER = "LET H(N) BE $( LET A = N; TIMES N DO $( IF A > 2 DO $( WRITEN(A); TIMES A DO WRCH('*S') $); A := A - 1 $) $)\n"
BEFORE = ["WRITEN(F(A) - 2 * I)", "WHILE I < 4 DO $( V!I := I; I := I + 1 $); WRITEN(V!3)", "TEST A = 3 DO WRITES(\"yes*N\") OR WRITES(\"no\")",
          "$( LET I = 7; WRITEN(I) $); WRITEN(I)", "G(4); WRITED(-5, 6)", "WRITEN(NOT A | 1 & 2); WRCH('x'); STOP(3)"]


def parts(files, kit):
    with tempfile.TemporaryDirectory() as folder:
        command = command_of(files[0], folder)

        def check(text):
            source = START % (HELPER if "H(4)" in text else "", text)
            bcpl = re.sub(r"\bTIMES\b", "FOR T.T = 1 TO", source)
            wanted = interpret(kit, asked(kit, "generate", given=asked(kit, "compile", given=bcpl.encode()).output).output, b"abcde")
            made = run(command, source.encode())
            if made.problem():
                return text, made.problem()
            made = run([kit, "generate"], made.output)
            if made.problem():
                return text, "generate " + made.problem()
            ran = interpret(kit, made.output, b"abcde", ["-t", "100000"])
            if ran.status != wanted.status:
                return text, "the run %s" % (ran.problem() or "ended with status 0")
            return text, first_difference(wanted.output, ran.output)

        old = Part("what it did before, it does", 2, each(check, BEFORE))
        new = [Part(name, of, each(check, rows)) for name, of, rows in [("UNTIL", 5, UNTIL), ("REPEATUNTIL", 5, REPEATUNTIL), ("TIMES", 8, TIMES)]]
        return new + [old]
