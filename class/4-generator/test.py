"""Exercise 4: OCODE goes through the filter, and its INTCODE is interpreted by the kit."""
import re
import sys
import tempfile

from grading import HERE, Part, asked, command_of, each, first_difference, interpret, run

sys.path.insert(0, str(HERE.parent / "conformance"))
import suite  # noqa: E402

EXAMPLES = ["calculator", "exits", "forms", "letters", "machine", "strings"]


def parts(files, kit):
    with tempfile.TemporaryDirectory() as folder:
        command = command_of(files[0], folder)

        def check(case):
            ocode = case.get("ocode") or asked(kit, "compile", given=case.get("b")).output
            made = run(command, ocode)
            if made.problem():
                return case.name, made.problem()
            ran = interpret(kit, made.output, case.get("in"), case.args)
            if ran.status != case.status:
                return case.name, "the run %s" % (ran.problem() or "ended with status 0")
            return case.name, first_difference(case.get("out"), ran.output)

        statements = [case for case in suite.read("generator") if case.file.stem == "statements" and not case.needs and case.rule == "OCODE, Statements"]
        # each operator once, with operands that differ
        operators = [case for case in suite.read("generator") if re.fullmatch(r"operators-\w+-of-(a-constant-and-a-variable|constants)", case.name) and case.status == 0]
        programs = suite.read("programs")
        return [Part("statements, one at a time", 10, each(check, statements + operators)),
                Part("small programs", 6, each(check, [case for case in programs if case.file.stem == "language" and not case.needs][::2])),
                Part("programs of `examples/`", 4, each(check, [case for case in programs if case.name.partition("example-")[2] in EXAMPLES]))]
