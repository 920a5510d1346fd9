"""Exercise 5: programs with and without the filter do the same, and statements that have to go are counted. The values of the rows are
by the rules of docs/LANGUAGE.md, worked out by hand."""
import tempfile

from grading import HERE, Part, asked, code, command_of, each, interpret, run

WRITEN = 'GET "LIBHDR"\nLET START() BE $( LET X = 9\n   WRITEN(%s) $)\n'
COMMAND = 'GET "LIBHDR"\nLET START() BE $( LET X = 9\n   %s\n   WRITEN(X) $)\n'
CONSTANTS = [("6 * 7", 42), ("-7 / 2", -3), ("-7 REM 2", -1), ("7 / -2", -3), ("2147483647 + 1", -2147483648), ("-2147483648 - 1", 2147483647),
             ("65536 * 65536", 0), ("1 << 31", -2147483648), ("1 << 32", 0), ("-1 >> 28", 15), ("-1 >> -1", 0), ("3 < 4", -1), ("4 <= 3", 0),
             ("-1 > 1", 0), ("5 >= 5", -1), ("5 = 5", -1), ("5 ~= 5", 0), ("12 & 10", 8), ("12 | 10", 14), ("12 EQV 10", -7), ("12 NEQV 10", 6),
             ("NOT 5", -6), ("-(3 + 4)", -7), ("(1 + 2) * (3 + 4) - 5", 16), ("TRUE", -1), ("TRUE + TRUE", -2), ("NOT FALSE", -1),
             ("-2147483648 / -1", -2147483648), ("'A' + 1", 66)]
NOTHING = ["X + 0", "X - 0", "X * 1", "X / 1", "X | 0", "X NEQV 0", "X << 0", "X & -1"]
CONDITIONS = [("IF FALSE DO X := 1", 9, 2), ("IF TRUE DO X := 1", 1, 2), ("UNLESS 1 = 2 DO X := 1", 1, 4), ("TEST 1 < 2 DO X := 1 OR X := 2", 1, 3),
              ("UNLESS TRUE DO X := 1", 9, 2)]
TRAPS = ["GET \"LIBHDR\"\nLET START() BE $( NEWLINE()\n WRITEN(1/0) $)\n", "GET \"LIBHDR\"\nLET START() BE $( NEWLINE()\n WRITEN(1 REM (2-2)) $)\n",
         "GET \"LIBHDR\"\nLET START() BE $( LET X = 0\n WRITEN(5/X) $)\n", "GET \"LIBHDR\"\nLET START() BE WRITEN((5 -> 1, 2) + 1)\n",
         "GET \"LIBHDR\"\nLET START() BE WRITEN(1 + VALOF $( FOR I = 1 TO 3 DO WRITEN(I)\n RESULTIS 2 $))\n",
         "GET \"LIBHDR\"\nLET F(X) = X - 1\nLET START() BE WRITEN(3 * F(7) + 0 * F(1))\n", "GET \"LIBHDR\"\nLET START() BE $( LET X = 5\n WRITEN(0 - X)\n WRITEN(0 - RDCH()) $)\n",
         "GET \"LIBHDR\"\nLET F() = VALOF $( WRITEN(1)\n RESULTIS 5 $)\nLET START() BE WRITEN(F() * 0)\n",
         "GET \"LIBHDR\"\nSTATIC $( S = 3 $)\nLET START() BE $( WHILE TRUE DO $( S := S + 1\n IF S > 9 BREAK $)\n WRITEN(S) $)\n",
         "GET \"LIBHDR\"\nLET START() BE $( LET V = VEC 3\n V!(1+1) := 5\n WRITEN(V!2 + (1 -> 4, 5) + 1!(V+1)) $)\n"]
EXAMPLES = ["calculator", "exits", "folding", "forms", "goto", "letters", "life", "loops", "machine", "roman", "sorting", "strings"]


def count(ocode):
    """The number of statements: each begins a line of `compile`, and each line of the filter is counted after it was read again."""
    words = b" ".join(ocode.split()).decode().split()
    return sum(word.isalpha() for word in words)


def parts(files, kit):
    with tempfile.TemporaryDirectory() as folder:
        command = command_of(files[0], folder)

        def same(program):
            name, source, given = program
            wanted, made = interpret(kit, code(kit, source).output, given), code(kit, source, command)
            if made.problem():
                return name, made.problem()
            ran = interpret(kit, made.output, given)
            return name, None if (ran.output, ran.status) == (wanted.output, wanted.status) else "it does something else"

        def shorter(what, source, value, most):
            """What a source writes by the filter, and that its OCODE has `most` statements at most."""
            ran = run(command, asked(kit, "compile", given=source.encode()).output)
            if ran.problem():
                return what, ran.problem()
            made = run([kit, "generate"], ran.output)
            wrote = interpret(kit, made.output).output.decode("latin-1") if made.status == 0 else made.problem()
            if wrote != str(value):
                wrong.append(what)
                return what, "it writes %s" % wrote
            return what, "%d statements are left over" % (count(ran.output) - most) if count(ran.output) > most else None

        def statements(source):
            return count(asked(kit, "compile", given=source.encode()).output)

        wrong = []
        programs = [(" / ".join(text.split("\n")[1:-1]), text.encode(), b"abc") for text in TRAPS]
        for name in EXAMPLES:
            path = HERE.parent / "examples" / (name + ".b")
            programs.append((path.name, path.read_bytes(), path.with_suffix(".in").read_bytes() if path.with_suffix(".in").exists() else b""))
        first = Part("programs do what they did", 8, each(same, programs))
        one, x = statements(WRITEN % "1"), statements(WRITEN % "X")
        rest = [Part("constants", 6, each(lambda row: shorter(row[0], WRITEN % row[0], row[1], one), CONSTANTS)),
                Part("operators that change nothing", 3, each(lambda text: shorter(text, WRITEN % text, 9, x), NOTHING)),
                Part("conditions", 3, each(lambda row: shorter(row[0], COMMAND % row[0], row[1], statements(COMMAND % row[0]) - row[2] + 1), CONDITIONS))]
        if first.points < first.of or wrong or not any(part.points for part in rest):
            for part in [first] + rest:
                part.points = min(part.points, 4 if part is first else 0)
                part.failed += ["a program does something else"] if (first.failed or wrong) and part is not first else []
        return [first] + rest
