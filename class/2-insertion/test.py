"""Exercise 2: the tokens that `show` prints, without those that are inserted, go through the filter; they must come out as `show` prints them."""
import tempfile
from pathlib import Path

from grading import HERE, Part, asked, command_of, each, run

BODY = 'GET "LIBHDR"\nLET F(X) = X\nLET START() BE\n$( LET A, B = 1, 2;\n   %s\n$)\n'
BETWEEN = ["A := 1\n   B := 2", "A := 'x'\n   B := TRUE\n   A := ?\n   (A -> F, F)(B)", "F(A)\n   F(B)", "$( A := 1 $)\n   B := 2",
           "WHILE A DO $( IF B DO BREAK\n   B := 2 $)", "A := 1 REPEAT\n   B := 1", "WRITES(\"a\")\n   !A := 2", "A := F(1)\n   IF B DO FINISH",
           "SWITCHON A INTO\n   $( CASE 1: ENDCASE\n      CASE 2: RETURN\n      DEFAULT: ENDCASE\n   $)", "A := FALSE\n   GOTO L\n   L: B := 2",
           "WHILE A DO LOOP\n   UNTIL B DO FINISH\n   $( FOR I = 1 TO 2 DO A := 1 $)\n   FOR I = 1 TO 2 DO A := 1", "B := 1\n   1!A := B",
           "A := \"one\"\n   B := 2\n   TEST A DO B := 1 OR RETURN\n   UNLESS A DO B := 1\n   RETURN\n   FINISH"]
GOING_ON = ["A := 1 +\n   2", "A := B\n   + 2", "A := F(\n   1,\n   2)", "IF A\n   DO B := 1", "A := B\n   - A", "TEST A\n   THEN B := 1\n   OR B := 2",
            "A := B ->\n   1,\n   2", "$( A := 1;\n   B := 2 $) REPEATWHILE\n   A", "A :=\n   B", "A, B :=\n   1, 2", "A := VALOF\n   RESULTIS 1", "A := B\n   REM 2"]
DO = ["IF A DO B := 1\n   IF A $( B := 1 $)", "IF A GOTO L\n   L: B := 1", "WHILE A IF B BREAK", "UNTIL F(A) FOR I = 1 TO 3 FINISH", "IF 'x' RETURN\n   IF TRUE FINISH",
      "FOR I = 1 TO 10 $( A := 1 $)", "TEST A $( B := 1 $) OR $( B := 2 $)", "IF A = ? TEST B THEN A := 1 OR B := 1", "UNLESS \"s\" SWITCHON A INTO $( $)",
      "IF A WHILE B UNTIL A $( UNLESS B LOOP $)", "WHILE A $(OUT B := 1 $)OUT\n   if A $(IN goto L $)IN\n   L: A := 2", "test A then B := 1 else finish"]


def tokens(kit, source):
    """The rows of `show --only tokens` for a source; None where the kit refuses it."""
    ran = asked(kit, "show", "--only", "tokens", "-", given=source)
    return [row for row in ran.output.decode("latin-1").splitlines() if row[:6].strip().isdigit()] if ran.status == 0 else None


def parts(files, kit):
    with tempfile.TemporaryDirectory() as folder:
        command = command_of(files[0], folder)

        def check(named):
            name, source = named
            wanted = tokens(kit, source)
            if wanted is None:
                return None
            given = [row for row in wanted if row.split(None, 2)[1] != "inserted"]
            ran = run(command, ("\n".join(given) + "\n").encode("latin-1"))
            came = ran.output.decode("latin-1").splitlines()
            if ran.problem() or [row.split() for row in came] == [row.split() for row in wanted]:
                return name, ran.problem()
            at = next((n for n, (a, b) in enumerate(zip(came, wanted)) if a.split() != b.split()), min(len(came), len(wanted)))
            rows = [" ".join(rows[at].split()) if at < len(rows) else "nothing" for rows in (came, wanted)]
            return name, "row %d of the output is `%s`, and not `%s`" % (at + 1, *rows)

        def rows(texts):
            return [(" / ".join(text.split("\n")), (BODY % text).encode()) for text in texts]

        programs = [(path.name, path.read_bytes()) for path in sorted((HERE.parent / "examples").glob("[c-l]*.b"))]
        return [Part(name, of, [it for it in each(check, texts) if it]) for name, of, texts in
                [("`;` between commands of two lines", 5, rows(BETWEEN)), ("no `;` where the line before goes on", 5, rows(GOING_ON)),
                 ("DO", 4, rows(DO)), ("`;` and DO in whole programs", 6, programs)]]
