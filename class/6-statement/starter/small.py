"""small.py: a compiler of a small BCPL. It reads a program and writes its OCODE.

    program     = GET "LIBHDR" {declaration}
    declaration = LET name ( [name {, name}] ) = expression | LET name ( [..] ) BE command
    command     = expression := expression | call | $( {LET name {, name} = expression {, expression} ;} command {; command} $)
                | IF expression DO command | TEST expression DO command OR command | WHILE expression DO command
                | RESULTIS expression | RETURN
    expression  = with ! and calls above unary - and NOT, then * / REM, + -, comparisons, &, |; VALOF command, VEC number in a LET

Each `;` and DO has to be written, and a declaration comes before the commands of its block. A label is a number; `code` has the
statements of the section, each as a text."""
import re
import sys

LIBRARY = {"START": 1, "STOP": 2, "RDCH": 3, "WRCH": 4, "NEWLINE": 5, "WRITES": 6, "WRITEN": 7, "WRITED": 8, "GETBYTE": 9, "PUTBYTE": 10}
WORDS = {"GET", "LET", "BE", "IF", "DO", "TEST", "OR", "WHILE", "RESULTIS", "RETURN", "VALOF", "VEC", "NOT", "REM", "TRUE", "FALSE"}
TOKEN = re.compile(r'\s*(?://[^\n]*\s*)*("(?:[^"*]|\*.)*"|\'(?:[^\'*]|\*.)\'|[A-Za-z][A-Za-z0-9.]*|[0-9]+|\$[()]|:=|~=|<=|>=|.)', re.S)
ESCAPES = {"N": "\n", "S": " ", "T": "\t"}
# operators by level, the lowest first
LEVELS = [{"|": "LOGOR"}, {"&": "LOGAND"}, {"=": "EQ", "~=": "NE", "<": "LS", ">": "GR", "<=": "LE", ">=": "GE"}, {"+": "PLUS", "-": "MINUS"},
          {"*": "MULT", "/": "DIV", "REM": "REM"}]


class Fault(Exception):
    pass


# The scanner.

def tokens(text):
    """The tokens of a text; reserved words and names in upper case."""
    found, at, text = [], 0, text.rstrip()
    while at < len(text):
        match = TOKEN.match(text, at)
        token = match.group(1)
        found.append(token if token[0] in "\"'" else token.upper())
        at = match.end()
    return [token for token in found if token.strip()] + ["the end"]


def characters(token):
    """The bytes of a string or a character constant."""
    return [ord(ESCAPES.get(pair[1].upper(), pair[1]) if len(pair) > 1 else pair) for pair in re.findall(r"\*.|[^*]", token[1:-1], re.S)]


# The parser: a tree of tuples, whose first element says what the node is.

class Parser:
    def __init__(self, found):
        self.tokens, self.at = found, 0

    def now(self):
        return self.tokens[self.at]

    def take(self, wanted=None):
        token = self.now()
        if wanted and token != wanted:
            raise Fault("%s expected, and not %s" % (wanted, token))
        self.at += 1
        return token

    def taken(self, token):
        """Whether it is the next token, which is taken then."""
        if self.now() == token:
            self.at += 1
            return True
        return False

    def name(self):
        if not self.now()[0].isalpha() or self.now() in WORDS:
            raise Fault("a name expected, and not %s" % self.now())
        return self.take()

    def listed(self, one):
        found = [one()]
        while self.taken(","):
            found.append(one())
        return found

    def program(self):
        self.take("GET")
        self.take('"LIBHDR"')
        found = []
        while not self.taken("the end"):
            found.append(self.procedure())
        return found

    def procedure(self):
        self.take("LET")
        name = self.name()
        self.take("(")
        formals = [] if self.now() == ")" else self.listed(self.name)
        self.take(")")
        if self.taken("="):
            return "function", name, formals, self.expression()
        self.take("BE")
        return "routine", name, formals, self.command()

    def block(self):
        declared, commands = [], []
        while self.taken("LET"):
            names = self.listed(self.name)
            self.take("=")
            declared.append((names, self.listed(self.initial)))
            self.take(";")
        while True:
            commands.append(self.command())
            if self.taken("$)"):
                return "block", declared, commands
            self.take(";")

    def initial(self):
        return ("vector", int(self.take())) if self.taken("VEC") else self.expression()

    def command(self):
        if self.taken("$("):
            return self.block()
        if self.taken("IF"):
            condition = self.expression()
            self.take("DO")
            return "if", condition, self.command()
        if self.taken("TEST"):
            condition = self.expression()
            self.take("DO")
            first = self.command()
            self.take("OR")
            return "test", condition, first, self.command()
        if self.taken("WHILE"):
            condition = self.expression()
            self.take("DO")
            return "while", condition, self.command()
        if self.taken("RESULTIS"):
            return "resultis", self.expression()
        if self.taken("RETURN"):
            return ("return",)
        left = self.expression()
        if self.taken(":="):
            return "assign", left, self.expression()
        if left[0] != "call":
            raise Fault("a command expected, before %s" % self.now())
        return left

    def expression(self, level=0):
        if level == len(LEVELS):
            return self.monadic()
        left = self.expression(level + 1)
        while self.now() in LEVELS[level]:
            operator = LEVELS[level][self.take()]
            left = "dyadic", operator, left, self.expression(level + 1)
        return left

    def monadic(self):
        if self.taken("-"):
            return "monadic", "NEG", self.monadic()
        if self.taken("NOT"):
            return "monadic", "NOT", self.monadic()
        if self.taken("!"):
            return "monadic", "RV", self.monadic()
        return self.indexed()

    def indexed(self):
        left = self.primary()
        while self.taken("!"):
            left = "monadic", "RV", ("dyadic", "PLUS", left, self.primary())
        return left

    def primary(self):
        token = self.now()
        if self.taken("("):
            found = self.expression()
            self.take(")")
        elif self.taken("VALOF"):
            found = "valof", self.command()
        elif self.taken("TRUE") or self.taken("FALSE"):
            found = "number", -(token == "TRUE")
        elif token[0].isdigit():
            found = "number", int(self.take())
        elif token[0] == "'":
            found = "number", characters(self.take())[0]
        elif token[0] == '"':
            found = "string", characters(self.take())
        else:
            found = "name", self.name()
        while self.taken("("):
            arguments = [] if self.now() == ")" else self.listed(self.expression)
            self.take(")")
            found = "call", found, arguments
        return found


# The translation.

class Translator:
    def __init__(self, program):
        self.code, self.label, self.slots, self.depth, self.results = [], 0, {}, 2, []
        self.words = {}   # for each procedure that is no global: the label of the word that has its address
        self.entries = []  # pairs of a global and the label of its entry
        for _, name, _, _ in program:
            if name not in LIBRARY:
                self.words[name] = self.fresh()
        for procedure in program:
            self.procedure(procedure)
        for name, label in self.words.items():
            self.put("DATALAB L%d" % label, "ITEML L%d" % self.procedures[name])
        self.put(" ".join(["GLOBAL", str(len(self.entries))] + ["%d L%d" % pair for pair in self.entries]))

    procedures = {}

    def put(self, *statements):
        self.code.extend(statements)

    def fresh(self):
        self.label += 1
        return self.label

    def procedure(self, procedure):
        kind, name, formals, body = procedure
        entry = self.fresh()
        self.put(" ".join(["ENTRY L%d %d" % (entry, len(name))] + [str(ord(letter)) for letter in name]), "SAVE %d" % (2 + len(formals)))
        self.slots, self.depth = {formal: n for n, formal in enumerate(formals, 2)}, 2 + len(formals)
        if kind == "function":
            self.expression(body)
            self.put("FNRN")
        else:
            self.command(body)
            self.put("RTRN")
        self.put("ENDPROC")
        self.procedures[name] = entry
        if name in LIBRARY:
            self.entries.append((LIBRARY[name], entry))

    def command(self, node):
        """Writes the statements of a command. The depth is afterwards as before."""
        kind = node[0]
        if kind == "block":
            slots, depth = dict(self.slots), self.depth
            for names, values in node[1]:
                self.declare(names, values)
            for command in node[2]:
                self.command(command)
            self.slots, self.depth = slots, depth
            self.put("STACK %d" % depth)
        elif kind == "if":
            end = self.fresh()
            self.jump(node[1], False, end)
            self.command(node[2])
            self.put("LAB L%d" % end)
        elif kind == "test":
            second, end = self.fresh(), self.fresh()
            self.jump(node[1], False, second)
            self.command(node[2])
            self.put("JUMP L%d" % end, "LAB L%d" % second)
            self.command(node[3])
            self.put("LAB L%d" % end)
        elif kind == "while":
            condition, body = self.fresh(), self.fresh()
            self.put("JUMP L%d" % condition, "LAB L%d" % body)
            self.command(node[2])
            self.put("LAB L%d" % condition)
            self.jump(node[1], True, body)
        elif kind == "resultis":
            self.expression(node[1])
            self.put("RES L%d" % self.results[-1])
            self.depth -= 1
        elif kind == "return":
            self.put("RTRN")
        elif kind == "assign":
            self.assign(node[1], node[2])
        else:
            self.call(node, "RTAP")

    def declare(self, names, values):
        if len(names) != len(values):
            raise Fault("%d names, and %d values" % (len(names), len(values)))
        places = []
        for value in values:
            if value[0] == "vector":
                first = self.depth
                self.put("STACK %d" % (first + value[1] + 1), "LLP %d" % first)
                self.depth = first + value[1] + 2
            else:
                self.expression(value)
            places.append(self.depth - 1)
        self.put("STORE")
        self.slots.update(zip(names, places))

    def assign(self, left, value):
        self.expression(value)
        if left[0] == "name":
            name = left[1]
            if name not in self.slots:
                raise Fault("%s is no variable" % name)
            self.put("SP %d" % self.slots[name])
            self.depth -= 1
        elif left[0] == "monadic" and left[1] == "RV":
            self.expression(left[2])
            self.put("STIND")
            self.depth -= 2
        else:
            raise Fault("no destination before :=")

    def jump(self, node, truth, label):
        """A jump to a label where the truth of a condition is `truth`."""
        if node[0] == "dyadic" and node[1] in ("LOGAND", "LOGOR"):
            if (node[1] == "LOGOR") == truth:
                self.jump(node[2], truth, label)
                self.jump(node[3], truth, label)
            else:
                past = self.fresh()
                self.jump(node[2], not truth, past)
                self.jump(node[3], truth, label)
                self.put("LAB L%d" % past)
        else:
            self.expression(node)
            self.put("%s L%d" % ("JT" if truth else "JF", label))
            self.depth -= 1

    def expression(self, node):
        """Writes the statements of an expression. The depth is one more afterwards."""
        kind = node[0]
        if kind == "number":
            self.push("LN %d" % node[1])
        elif kind == "string":
            self.push(" ".join(["LSTR", str(len(node[1]))] + [str(code) for code in node[1]]))
        elif kind == "name":
            self.push(self.load(node[1]))
        elif kind == "monadic":
            self.expression(node[2])
            self.put(node[1])
        elif kind == "dyadic":
            self.expression(node[2])
            self.expression(node[3])
            self.put(node[1])
            self.depth -= 1
        elif kind == "call":
            self.call(node, "FNAP")
            self.depth += 1
        else:
            depth = self.depth
            self.results.append(self.fresh())
            self.command(node[1])
            self.put("LAB L%d" % self.results.pop())
            self.push("RSTACK %d" % depth)

    def push(self, statement):
        self.put(statement)
        self.depth += 1

    def load(self, name):
        if name in self.slots:
            return "LP %d" % self.slots[name]
        if name in self.words:
            return "LL L%d" % self.words[name]
        if name in LIBRARY:
            return "LG %d" % LIBRARY[name]
        raise Fault("%s is not declared" % name)

    def call(self, node, statement):
        depth = self.depth
        self.put("STACK %d" % (depth + 2))
        self.depth = depth + 2
        for argument in node[2]:
            self.expression(argument)
        self.expression(node[1])
        self.put("%s %d" % (statement, depth))
        self.depth = depth


try:
    print("\n".join(Translator(Parser(tokens(sys.stdin.read())).program()).code))
except Fault as fault:
    sys.exit("small.py: %s" % fault)
