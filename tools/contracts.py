"""The definitions of specs/ and the contracts of src/, as tools/reading and tools/proofs read them."""
import re
from pathlib import Path

ROOT = Path(__file__).resolve().parent.parent
CRATES = ROOT / "crates"
# a definition of specs/ begins so; its equations and fields follow
HEAD = re.compile(r"(?:unfoldable )?(?:abbrev )?(?:pub )?(?:(?:record|data) )?([^\s:(){}]+)(?: .*)? :(?: |$)")
# what groups definitions that are indented below it
BLOCK = re.compile(r"(?:abbrev )?(?:mutual|module)\b")
USE = re.compile(r"^use Rattle\.(\S+?)(?:\.\{(.*)\})?(?: as (\S+))?$")
WORD = re.compile(r"[^\s(){}\[\],;λ.→×≡∷]+(?:\.[^\s(){}\[\],;λ→×≡∷.]+)*")
FUNCTION = re.compile(r"^\s*(?:pub(?:\([^)]*\))? )?(?:const )?(?:extern \"C\" )?fn (\w+)")
CLAUSE = re.compile(r"^\s*(ensures|requires)\s*(\w*)\s*\{")


class Module:
    """A file of specs/: its definitions with their lines and the comment over each, what its imports name, and of constructors and fields
    the type."""

    def __init__(self, path):
        self.path, self.lines, self.comments, self.names, self.prefixes, self.types = path, {}, {}, {}, {}, {}
        name, level, comment = None, 0, []
        for line in path.read_text(encoding="utf-8").split("\n"):
            use, text = USE.match(line), line.strip()
            if use:
                self.use(*use.groups())
                continue
            if not text or text.startswith("--"):
                comment = [*comment, text.removeprefix("--").strip()] if text else []
                continue
            indent = len(line) - len(line.lstrip())
            if indent == 0:
                level = 2 if BLOCK.match(line) else 0
                if level:
                    comment = []
                    continue
            head = HEAD.match(text)
            if head and indent == level:
                name = head.group(1)
                if comment:
                    self.comments.setdefault(name, " ".join(comment))
            elif head and name and re.match(r"(pub )?\S+ :", text):
                self.types.setdefault(head.group(1), name)
            elif indent == level:
                # a clause belongs to the name that it begins with, whichever signature comes last before it
                name = next((it for it in WORD.findall(text)[:1] if it in self.lines), name)
            comment = []
            self.lines.setdefault(name, []).append(line)

    def use(self, module, names, short):
        if names is None:
            self.prefixes[short or module.split(".")[-1]] = module
        else:
            for name in names.split(", "):
                given, _, other = name.partition(" as ")
                self.names[other or given] = (module, given)


class Imports(Module):
    """What the `ghost use` lines of a file of src/ name."""

    def __init__(self, lines):
        self.names, self.prefixes, self.lines, self.types = {}, {}, {}, {}
        for line in lines:
            use = USE.match(line.strip().removeprefix("ghost ").rstrip(";"))
            if use:
                self.use(*use.groups())


def modules():
    """The modules of all specs/ by their names, as an import writes them."""
    found = {}
    for path in sorted(CRATES.glob("*/specs/**/*.antt")):
        crate = path.relative_to(CRATES).parts[0]
        inside = path.relative_to(CRATES / crate / "specs").with_suffix("").parts
        found[".".join((crate, "specs") + inside)] = Module(path)
    return found


def named(module, text):
    """The pairs (module, name) that a text of this module may mean."""
    for word in WORD.findall(text):
        parts = word.split(".")
        if parts[0] in module.names:
            yield module.names[parts[0]]
        elif parts[0] in module.prefixes and len(parts) > 1:
            yield (module.prefixes[parts[0]], parts[1])
        elif parts[0] in module.lines:
            yield (None, parts[0])


class Clause:
    """A clause of a contract: `ensures` or `requires`, its name if it has one, its text on one line, and the comment over it."""

    def __init__(self, kind, name, text, comment):
        self.kind, self.name, self.text, self.comment = kind, name, text, comment


class Function:
    """A function of src/ with its contract: where it is, the type or trait that has it, what is written over it, and its clauses."""

    def __init__(self, path, number, owner, name, public, words, text):
        self.path, self.number, self.owner, self.name, self.public = path, number, owner, name, public
        self.words, self.lines = words, text
        self.clauses = list(clauses(text))

    def is_law(self):
        """Whether it takes and returns nothing, so that its contract is a law."""
        return re.match(r"\s*pub fn \w+\(\)$", self.lines[0]) is not None


def clauses(lines):
    """The clauses in the lines of a contract."""
    comment, head, body = [], None, ""
    for line in lines:
        text = line.strip()
        begins = CLAUSE.match(line)
        if begins and not body:
            head, body = begins, text[text.index("{"):]
        elif body:
            body += " " + text
        elif text.startswith("// "):
            comment.append(text[3:])
            continue
        else:
            comment = []
            continue
        if body.count("{") == body.count("}"):
            yield Clause(head.group(1), head.group(2), body.rstrip(";")[1:-1].strip(), " ".join(comment))
            comment, body = [], ""


def contract_end(lines, at):
    """The number of the line after the contract of the function that a line begins: that of its body."""
    depth = 0
    for i in range(at, len(lines)):
        text = lines[i].rstrip()
        if depth == 0:
            if text.strip() in ("{", "{}"):
                return i
            if text.endswith((" {", "{}")) and not CLAUSE.match(lines[i]):
                return i + 1
        if depth or CLAUSE.match(lines[i]):
            depth += text.count("{") - text.count("}")
        if depth == 0 and text.endswith(";"):
            return i + 1
    return len(lines)


def functions(path):
    """The functions of a file of src/, those of its tests left out."""
    owner, trait, words = "", False, []
    lines = path.read_text(encoding="utf-8").split("\n")
    for i, line in enumerate(lines):
        text = line.strip()
        if text.startswith("///"):
            words.append(text[3:].strip())
            continue
        block = re.match(r"(pub(?:\([^)]*\))? )?(impl|trait)\b(?:<[^{]*?>)? ?(?:.* for )?(\w+)", line)
        if block:
            owner, trait = block.group(3), block.group(2) == "trait"
        elif line == "}":
            owner, trait = "", False
        begins = FUNCTION.match(line)
        if begins and not line.startswith("        "):
            public = trait or text.startswith(("pub fn", "pub extern"))
            yield Function(path, i + 1, owner if line.startswith(" ") else "", begins.group(1), public, " ".join(words), lines[i:contract_end(lines, i)])
        if not text.startswith(("#[", "//")) and text != "":
            words = []


def exported(crate):
    """What the lib.rt of a crate exports: its public modules, and of the other modules the names."""
    text = (CRATES / crate / "src/lib.rt").read_text(encoding="utf-8")
    names = {}
    for module, several, one in re.findall(r"^pub use (\w+)::(?:\{([^}]*)\}|(\w+));", text, re.M):
        names.setdefault(module, set()).update(it.strip() for it in (several or one).split(",") if it.strip())
    return names | {module: None for module in re.findall(r"^pub mod (\w+);", text, re.M)}


def contracts(crate):
    """The functions of a crate, in the order of its files, and of each whether a crate above can call it."""
    open_to = exported(crate) if (CRATES / crate / "src/lib.rt").exists() else {}
    types = set().union(*(names for names in open_to.values() if names))
    for path in sorted((CRATES / crate / "src").rglob("*.rt")):
        names = open_to.get(path.stem, set())
        for function in functions(path):
            shown = path.stem == "lib" or names is None or (function.owner or function.name) in names or function.owner in types
            yield function, function.public and shown
