"""The cases: how they are read, what each of them needs, and what is done with each. README.md has the format.

What is done with a case is a generator: it yields one request after another, `Request(words, input, file)`, gets the answer of each,
`Answer(output, line, status)`, and returns its results. So the same cases run by one process for each request, by one for many, or by
calls in Python (porting/mutants)."""
import re
from collections import namedtuple
from pathlib import Path

VERSION = "2.0"
HERE = Path(__file__).resolve().parent
PARTS = ["machine", "generator", "compiler", "programs"]  # those that are run where none is named
ALL_PARTS = PARTS + ["command", "show"]
NEEDS = ["steps", "store", "sizes", "texts"]
FIELDS = ("int", "ocode", "b", "in", "out", "line", "status", "args")
ESCAPE = re.compile(rb"\\(?:x([0-9A-Fa-f]{2})|\{([0-9]+) (.*?)\\\}|(.))", re.S)
PLAIN = {b"n": b"\n", b"t": b"\t", b"r": b"\r", b"f": b"\f", b"\\": b"\\", b"\n": b""}

Request = namedtuple("Request", "words input file")  # file: the bytes of FILE, which is the last word, or None
Answer = namedtuple("Answer", "output line status")
Result = namedtuple("Result", "how problems shown")  # problems: what differs; shown: for each its name, what is wanted and what came


class Case:
    def __init__(self, part, name, file, rule):
        self.part, self.name, self.file, self.rule, self.fields, self.extra = part, name, file, rule, {}, set()

    def get(self, field, default=b""):
        return self.fields.get(field, default)

    @property
    def args(self):
        return self.get("args").decode().split()

    @property
    def line(self):
        return self.fields["line"] + b"\n" if "line" in self.fields else b""

    @property
    def status(self):
        return int(self.get("status", b"0"))

    @property
    def needs(self):
        """What a port has to offer for this case: options, or checks."""
        line = self.get("line")
        found = {"steps": "-t" in self.args or line == b"step limit", "store": "-s" in self.args or line in (b"store limit",
            b"store too small"),
                 "sizes": "--sizes" in self.args, "texts": self.status in (101, 102, 103)}
        return {need for need in found if found[need]} | self.extra


def unescaped(raw, where):
    """The text of a field: its escapes replaced."""
    def one(match):
        byte, count, body, other = match.groups()
        if byte:
            return bytes([int(byte, 16)])
        if count:
            return unescaped(body, where) * int(count)
        if other not in PLAIN:
            raise ValueError("%s: no such escape: \\%s" % (where, other.decode("latin-1")))
        return PLAIN[other]
    return ESCAPE.sub(one, raw)


def read_file(part, path):
    """The cases of a file."""
    found, raw, block, blanks, rule, case, key = [], b"", False, 0, None, None, None

    def close():
        if key:
            case.fields[key] = raw.decode().strip().encode() if key in ("args", "status") else unescaped(raw, where)

    for number, line in enumerate(path.read_bytes().split(b"\n"), 1):
        where = "%s:%d" % (path, number)
        if block and key and line.startswith(b"    "):
            raw += b"\n" * blanks + line[4:] + b"\n"
            blanks = 0
            continue
        if not line:
            blanks += 1
            continue
        close()
        key, blanks, raw = None, 0, b""
        if line.startswith(b"#"):
            told = re.match(r"# (rule|needs): (.*)", line.decode("latin-1"))
            if told and told.group(1) == "rule":
                rule = told.group(2)
            elif told:
                case.extra = set(told.group(2).split())
            continue
        name, colon, rest = line.partition(b":")
        field = name.decode("latin-1")
        if not colon or rest[:1] not in (b"", b" "):
            raise ValueError("%s: no field" % where)
        if field == "case":
            if not re.fullmatch(rb" [a-z0-9-]+", rest):
                raise ValueError("%s: no name" % where)
            case = Case(part, rest[1:].decode(), path, rule)
            found.append(case)
        elif field in FIELDS and case:
            key, block, raw = field, not rest, rest[1:]
        else:
            raise ValueError("%s: no field" % where)
    where = str(path)
    close()
    return found


def read(part, here=HERE):
    """The cases of a part, by their names. The programs of examples/ are cases of programs/ too, as example-NAME."""
    found = [case for path in sorted((here / part).glob("*.cases")) for case in read_file(part, path)]
    if part == "programs":
        for path in sorted((here.parent / "examples").glob("*.b")):
            case = Case(part, "example-" + path.stem, path, "LANGUAGE, What programs mean")
            for key, suffix in (("b", ".b"), ("in", ".in"), ("out", ".out")):
                if path.with_suffix(suffix).exists():
                    case.fields[key] = path.with_suffix(suffix).read_bytes()
            found.append(case)
    names = [case.name for case in found]
    twice = {name for name in names if names.count(name) > 1} if len(set(names)) < len(names) else ()
    if twice:
        raise ValueError("%s: two cases of one name: %s" % (part, ", ".join(sorted(twice))))
    return sorted(found, key=lambda case: case.name)


# What is done with a case.

def compared(how, case, answer, output):
    """The result of an answer; `output` is what is wanted, or None where any output is."""
    shown = [("output", output, answer.output)] if output is not None and answer.output != output else []
    if answer.line != case.line:
        shown.append(("line", case.line, answer.line))
    problems = [what for what, _, _ in shown]
    if answer.status != case.status:
        problems.append("status (%s, not %d)" % (answer.status, case.status))
    return Result(how, problems, shown)


def bounded(case, without):
    """The options of a case; a million steps where it has no `-t`, so that a machine that goes wrong ends soon. A port without steps gets none."""
    return case.args if "-t" in case.args or "steps" in without else case.args + ["-t", "1000000"]


def machine(case, without):
    answer = yield Request(["interpret"] + bounded(case, without), case.get("in"), case.get("int"))
    return [compared("interpret", case, answer, case.get("out"))]


def command(case, _):
    how, key = next((how, key) for how, key in (("interpret", "int"), ("generate", "ocode"), ("run", "b")) if key in case.fields)
    if how == "generate":
        answer = yield Request([how], case.get(key), None)
        return [compared(how, case, answer, None)]
    answer = yield Request([how] + case.args, case.get("in"), case.get(key))
    return [compared(how, case, answer, case.get("out"))]


def generator(case, without):
    """The text that `generate` writes is free. A refused section writes none, so nothing is written where the first is refused."""
    answer = yield Request(["generate"], case.get("ocode"), None)
    if answer.status != 0:
        is_first = case.line.startswith(b"section 1,")
        return [compared("generate", case, answer, case.get("out") if is_first else None)]
    answer = yield Request(["interpret"] + bounded(case, without), case.get("in"), answer.output)
    if "--sizes" in case.args:  # (the image is the generator's own)
        answer = answer._replace(output=answer.output.rpartition(b", ")[2])
    return [compared("generate and interpret", case, answer, case.get("out"))]


def compiler(case, _):
    """The OCODE is compared with one word a line, since the places of its line ends are free."""
    answer = yield Request(["compile"], case.get("b"), None)
    answer = answer._replace(output=b"\n".join(answer.output.split()))
    return [compared("compile", case, answer, b"\n".join(case.get("ocode").split()))]


def programs(case, _):
    answer = yield Request(["run"] + case.args, case.get("in"), case.get("b"))
    results = [compared("run", case, answer, case.get("out"))]
    answer = yield Request(["compile"], case.get("b"), None)
    if answer.status == 0:
        answer = yield Request(["generate"], answer.output, None)
    if answer.status == 0:
        answer = yield Request(["interpret"] + case.args, case.get("in"), answer.output)
    else:
        answer = answer._replace(output=b"")
    return results + [compared("the filters", case, answer, case.get("out"))]


def show(case, _):
    answer = yield Request(["show"] + case.args, case.get("in"), case.get("b"))
    return [compared("show", case, answer, case.get("out"))]


DO = {"machine": machine, "generator": generator, "compiler": compiler, "programs": programs, "command": command, "show": show}


def results_of(case, answer_to, without=()):
    """The results of a case, by a function that answers each request; `without` is what the port does not offer."""
    doing = DO[case.part](case, without)
    try:
        request = next(doing)
        while True:
            request = doing.send(answer_to(request))
    except StopIteration as end:
        return end.value
