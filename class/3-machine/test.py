"""Exercise 3: the machine runs the cases of conformance/machine that a machine for the class has to pass."""
import sys
import tempfile

from grading import HERE, Part, command_of, each, run

sys.path.insert(0, str(HERE.parent / "conformance"))
import suite  # noqa: E402

PARTS = [("functions, and the forms of an operand", 5, ["functions"]), ("operations", 5, ["operations"]), ("bytes", 2, ["bytes"]),
         ("library", 5, ["library"]), ("ends, and steps that are counted", 3, ["steps"])]
NOT_NEEDED = {"store", "sizes", "texts"}


def parts(files, kit):
    with tempfile.TemporaryDirectory() as folder:
        command = command_of(files[0], folder)

        def answer(request):
            with tempfile.NamedTemporaryFile(suffix=".int") as file:
                file.write(request.file)
                file.flush()
                ran = run(command + request.words + [file.name], request.input)
            return suite.Answer(ran.output, ran.errors, ran.status)

        def check(case):
            problems = [problem for result in suite.results_of(case, answer) for problem in result.problems]
            return case.name, ", ".join(problems) + (" differs" if problems else "") or None

        cases = [case for case in suite.read("machine") if not case.needs & NOT_NEEDED]
        return [Part(name, of, each(check, [case for case in cases if case.file.stem in stems])) for name, of, stems in PARTS]
