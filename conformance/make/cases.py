"""Writes cases in the format of conformance/README.md."""
import re
import sys
from pathlib import Path

ROOT = Path(__file__).resolve().parent.parent
FIELDS = ("args", "int", "ocode", "b", "in", "out", "line", "status")
ESCAPES = {10: "\\n", 9: "\\t", 13: "\\r", 12: "\\f", 92: "\\\\"}
SHOWN = set(range(32, 127)) - {92}


def escaped(text):
    """The text of a field with its escapes: in one line, or as a block where lines are of plain bytes."""
    text = text if isinstance(text, bytes) else text.encode("latin-1")
    lines = text.split(b"\n")
    plain = all(byte in SHOWN for line in lines for byte in line)
    if len(lines) > 1 and plain and lines[-1] == b"" and all(line and line[-1:] != b" " for line in lines[:-1]):
        return "\n" + "".join("    %s\n" % line.decode() for line in lines[:-1])
    out = "".join(chr(byte) if byte in SHOWN else ESCAPES.get(byte, "\\x%02x" % byte) for byte in text)
    if out.endswith(" "):
        out = out[:-1] + "\\x20"
    return " %s\n" % out


def named(text):
    """A part of a name that says which text a case has: small letters stand for capitals, and `small` is before those that are small."""
    spelled = {"-": "minus", "+": "plus", ".": "dot", " ": "", ";": "", "=": "equals", "\\": "backslash", "_": "underline", "#": "number",
        "'": "quote", '"': "quotes", "*": "star",
               "(": "open", ")": "close", ":": "colon", ",": "comma", "$": "dollar", "\n": ""}
    words = re.findall("[A-Z]+|[a-z]+|[0-9]+|.", text, re.S)
    return "-".join(filter(None, ("small-" + w if w.islower() else w.lower() if w.isalnum() else spelled.get(w,
        "byte-%02x" % ord(w)) for w in words)))


class Table:
    """A file of cases, PART/NAME.cases, which is written at `close`."""
    def __init__(self, path, text):
        self.path, self.out, self.names = path, ["# %s conformance/make/%s writes this file.\n" % (text, Path(sys.argv[0]).name)], {}
        self.maker = Path(sys.argv[0]).name
        self.prefix = path.rpartition("table-")[2] + "-"

    def rule(self, page, heading):
        """The rule of the cases after it."""
        self.out.append("\n# rule: %s, %s\n" % (page, heading))

    def note(self, text):
        self.out.append("\n# %s\n" % text)

    def case(self, name, **fields):
        name = self.prefix + name
        self.names[name] = self.names.get(name, 0) + 1
        if self.names[name] > 1:
            name += "-again-%d" % self.names[name]
        self.out.append("\ncase: %s\n" % name)
        for key in FIELDS:
            value = fields.pop(key, None)
            if value not in (None, b"", "", 0):
                self.out.append("%s:%s" % (key, " %s\n" % value if key in ("args", "status") else escaped(value)))
        assert not fields, fields

    def close(self):
        """Writes the file, or with `--check` compares it."""
        text, file = "".join(self.out), ROOT / (self.path + ".cases")
        if "--check" in sys.argv:
            if not file.exists() or file.read_text() != text:
                sys.exit("%s is not what conformance/make/%s writes" % (file, self.maker))
        else:
            file.write_text(text)
