"""What the grader and the tests of the exercises share: the exercises, parts with points, and processes. Each folder N-NAME has a file
test.py with a function `parts(files, kit)`, which gives the parts of what was handed in; `files` are paths, `kit` the path of the program
`bcpl`."""
import functools
import importlib.util
import os
import subprocess
import sys
import tempfile
from concurrent.futures import ThreadPoolExecutor
from pathlib import Path

HERE = Path(__file__).resolve().parent
SECONDS = 10  # that a process may take


def folders():
    return {int(path.name.split("-")[0]): path for path in sorted(HERE.glob("[0-9]-*"))}


def kit():
    """The program of the variable BCPL, or of this tree."""
    if os.environ.get("BCPL"):
        return os.environ["BCPL"]
    ran = subprocess.run([str(HERE.parent / "bcpl"), "--which"], capture_output=True, text=True)
    if ran.returncode != 0:
        sys.exit("grade: there is no program bcpl; name one by --kit\n" + ran.stderr.strip())
    return ran.stdout.strip()


def graded(number, files, program):
    """What exercise `number` gives for files, as a record."""
    spec = importlib.util.spec_from_file_location("test", folders()[number] / "test.py")
    test = importlib.util.module_from_spec(spec)
    spec.loader.exec_module(test)
    parts = test.parts(files, program)
    return {"exercise": number, "name": folders()[number].name, "points": sum(part.points for part in parts), "of": sum(part.of for part in parts),
            "parts": [{"name": part.name, "points": part.points, "of": part.of, "failed": part.failed} for part in parts]}


class Part:
    """A part of an exercise: `of` points if none of its checks fails, and else in proportion, rounded down."""

    def __init__(self, name, of, checks):
        checks = list(checks)  # pairs: what was checked, and what is wrong with it, or None
        self.name, self.of = name, of
        self.failed = ["%s: %s" % check for check in checks if check[1]]
        self.points = of * (len(checks) - len(self.failed)) // len(checks)


class Ran:
    def __init__(self, status, output, errors):
        self.status, self.output, self.errors = status, output, errors

    def problem(self):
        """A sentence on a process that did not end well, or None."""
        if self.status == 0:
            return None
        lines = self.errors.decode("utf-8", "replace").strip().split("\n")
        line = [line for line in lines if not line.startswith(" ")][-1]  # (those with blanks before them say more of the one before)
        return "ended with status %s%s" % (self.status, ": " + line[:100] if line else "")


def run(command, given=b""):
    """Runs a command over bytes."""
    try:
        done = subprocess.run([str(word) for word in command], input=given, capture_output=True, timeout=SECONDS)
    except subprocess.TimeoutExpired:
        return Ran("none", b"", b"no end after %d seconds" % SECONDS)
    except OSError as error:
        return Ran("none", b"", str(error).encode())
    return Ran(done.returncode, done.stdout, done.stderr)


@functools.lru_cache(maxsize=None)
def asked(*command, given=b""):
    """What the kit answers, which is the same each time."""
    return run(command, given)


def each(function, items):
    """The results of a function for each item, a few at a time."""
    with ThreadPoolExecutor(os.cpu_count()) as pool:
        return list(pool.map(function, items))


def command_of(path, folder):
    """How to start what was handed in: a program in Python, one in C, which is compiled, or anything that can be executed."""
    path = Path(path).resolve()
    if path.suffix == ".py":
        return [sys.executable, "-S", path]
    if path.suffix == ".c":
        program = Path(folder) / (path.stem + ".out")
        done = run(["cc", "-O2", "-o", program, path])
        if done.status != 0:
            raise SystemExit("grade: %s does not compile:\n%s" % (path, done.errors.decode("utf-8", "replace")))
        return [program]
    return [path]


def code(kit, source, change=None):
    """The INTCODE of a source, by the kit; `change` is a command that the OCODE goes through first."""
    ran = asked(kit, "compile", given=source)
    if ran.status == 0 and change:
        ran = run(change, ran.output)
    return ran if ran.status != 0 else run([kit, "generate"], ran.output)


def interpret(kit, intcode, given=b"", options=()):
    """Runs a text of INTCODE by the kit."""
    with tempfile.NamedTemporaryFile(suffix=".int") as file:
        file.write(intcode)
        file.flush()
        return run([kit, "interpret", *options, file.name], given)


def first_difference(wanted, came):
    """Where two texts differ, without what is wanted."""
    if wanted == came:
        return None
    lines = list(zip(wanted.split(b"\n"), came.split(b"\n")))
    at = next((n for n, (a, b) in enumerate(lines) if a != b), len(lines))
    line = came.split(b"\n")[at] if at < len(came.split(b"\n")) else b""
    return "line %d of the output is %r" % (at + 1, line.decode("latin-1")[:60]) if line else "the output ends, or has an empty line, at line %d" % (at + 1)
