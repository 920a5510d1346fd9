#!/usr/bin/env python3
"""compile: a compiler from BCPL to OCODE: python3 compile.py < SOURCE > CODE. It is written from docs/LANGUAGE.md and docs/SCHEME.md alone,
and is not proved. It does not count nodes or levels, so it has no fault of nesting or of nodes, and takes any section of Python's depth."""
import copy
import sys
from fractions import Fraction

RESERVED = """AND BE BREAK BY CASE DEFAULT DO ELSE ENDCASE EQ EQV FALSE FINISH FOR GET GLOBAL GOTO IF INTO LET LOOP MANIFEST NE NEQV NOT OR REM
REPEAT REPEATUNTIL REPEATWHILE RESULTIS RETURN STATIC SWITCHON TABLE TEST THEN TO TRUE UNLESS UNTIL VALOF VEC WHILE""".split()
SAME = {"THEN": "DO", "ELSE": "OR", "EQ": "=", "NE": "~=", "~": "NOT"}
SIGNS = ["$(", "$)", "~=", "<=", ">=", "<<", ">>", "->", ":="] + list("()+-*/!%@=<>~&|,;:?.")
ESCAPES = {"N": 10, "T": 9, "S": 32, "B": 8, "P": 12, "C": 13, "*": 42, "'": 39, '"': 34}
HEADER = ("GLOBAL $( START:1; STOP:2; RDCH:3; WRCH:4; NEWLINE:5; WRITES:6; WRITEN:7; WRITED:8; GETBYTE:9; PUTBYTE:10%s $) "
          "MANIFEST $( ENDSTREAMCH=-1; BYTESPERWORD=4 $)")
HEADERS = {"LIBHDR": HEADER % "", "LIBHDR2": HEADER % "; WRITEF:11"}
ENDS_OPERAND = {"name", "number", "character", "string", "TRUE", "FALSE", "?", ")"}
ENDS_COMMAND = ENDS_OPERAND | {"$)", "BREAK", "LOOP", "ENDCASE", "RETURN", "FINISH", "REPEAT"}
BEGINS_COMMAND = set("$( GOTO IF UNLESS TEST WHILE UNTIL FOR SWITCHON BREAK LOOP ENDCASE RESULTIS RETURN FINISH".split())
BEGINS_ON_LINE = BEGINS_COMMAND | {"name", "number", "(", "!", "CASE", "DEFAULT"}
MOST_BYTES, MOST_SYMBOLS = 1048576, 262144
LEVELS = 4000  # of calls in Python: enough for 200 levels of a tree
# The rows of the operators between operands, with their statements.
ROWS = {"!": 2, "%": 2, "*": 4, "/": 4, "REM": 4, "+": 5, "-": 5, "=": 6, "~=": 6, "<": 6, ">": 6, "<=": 6, ">=": 6, "<<": 7, ">>": 7, "&": 9, "|": 10, "EQV": 11, "NEQV": 11}
PREFIXES = {"!": 3, "@": 3, "+": 5, "-": 5, "NOT": 8}
STATEMENTS = {"*": "MULT", "/": "DIV", "REM": "REM", "+": "PLUS", "-": "MINUS", "=": "EQ", "~=": "NE", "<": "LS", ">": "GR", "<=": "LE", ">=": "GE",
              "<<": "LSHIFT", ">>": "RSHIFT", "&": "LOGAND", "|": "LOGOR", "EQV": "EQV", "NEQV": "NEQV", "%": "GETBYTE"}
FAULTS = {13: "not declared: ", 14: "declared twice: ", 15: "dynamic name used in a procedure: ", 16: "not a constant", 17: "constant divided by zero", 18: "CASE repeated",
          19: "DEFAULT repeated", 20: "no loop here", 21: "no SWITCHON here", 22: "RESULTIS or RETURN not here", 23: "label not here: ", 24: "global outside 0 to 999",
          25: "VEC outside 0 to 32767", 26: "frame over 65535 words", 27: "not assignable", 28: "two procedures for one global: "}


class Fault(Exception):
    """A fault, with its line and its text."""


class Node:
    """A part of the tree: its kind, the place of its first symbol, and what belongs to its kind."""

    def __init__(self, kind, token, **parts):
        self.kind, self.at, self.line = kind, token.at, token.line
        self.__dict__.update(parts)


class Token:
    def __init__(self, kind, line, value=None):
        self.kind, self.line, self.value, self.at = kind, line, value, 0


# Symbols

class Lexer:
    """The symbols of a text, section by section."""

    def __init__(self, text):
        self.text, self.at, self.line = text, 0, 1

    def fault(self, text):
        raise Fault(self.get if text == "bad GET" else self.line, text)

    def section(self):
        """The symbols of the next section with those inserted, and whether the text has more."""
        self.begin, self.tokens, self.get = self.at, [], None  # get: the line of a GET whose string is due
        while True:
            self.skip_blanks()
            if self.at == len(self.text):
                if self.get:
                    self.fault("bad GET")
                return self.inserted(), False
            if self.at - self.begin >= MOST_BYTES or len(self.tokens) >= MOST_SYMBOLS and self.peek() not in "._":
                self.fault("section too long")
            kind, value, line = self.symbol()
            if self.get and kind != "string":
                self.fault("bad GET")
            if kind == ".":
                return self.inserted(), True
            if self.get:
                self.header(value)
            elif kind == "GET":
                self.get = line
            else:
                self.add(Token(kind, line, value))

    def add(self, token):
        before = self.tokens[-1] if self.tokens else Token("", 0)
        if before.line != token.line and before.kind in ENDS_COMMAND and token.kind in BEGINS_ON_LINE:
            self.tokens.append(Token(";", token.line))
        elif before.line == token.line and before.kind in ENDS_OPERAND and token.kind in BEGINS_COMMAND:
            self.tokens.append(Token("DO", token.line))
        self.tokens.append(token)
        if len(self.tokens) > MOST_SYMBOLS:
            self.fault("section too long")

    def inserted(self):
        for at, token in enumerate(self.tokens):
            token.at = at
        return self.tokens

    def header(self, name):
        """Adds the symbols of a header, which are on the line of their GET."""
        lexer = Lexer(HEADERS[bytes(name).decode("latin-1").upper()])
        for token in lexer.section()[0]:
            self.add(Token(token.kind, self.get, token.value))
        self.get = None

    def peek(self, ahead=0):
        at = self.at + ahead
        return self.text[at] if at < len(self.text) else ""

    def next(self):
        byte = self.peek()
        self.at += 1
        if self.at - self.begin > MOST_BYTES:
            self.fault("section too long")
        if byte == "\n":
            self.line += 1
        return byte

    def skip_blanks(self):
        while self.at < len(self.text):
            if self.peek() in " \t\n\f\r":
                self.next()
            elif self.peek() == "/" and self.peek(1) == "/":
                while self.peek() not in ("\n", ""):
                    self.next()
            else:
                break

    def symbol(self):
        """The next symbol: its kind, its value and its line."""
        line, byte = self.line, self.peek()
        if self.get and byte == "/":
            self.fault("bad byte" if self.peek(1) == "_" else "bad GET")
        if is_letter(byte):
            name = self.run_of("", 255, "name over 255 bytes").upper()
            return (SAME.get(name, name) if name in RESERVED else "name"), name, line
        if self.get and (is_digit(byte) or byte in "#$'()+-*!%@=~<>&|,;:?."):
            self.fault("bad GET")
        if is_digit(byte) or byte == "#":
            return "number", self.number(), line
        if byte == '"':
            return "string", self.string(), line
        if byte == "'":
            return "character", self.character(), line
        for sign in SIGNS:
            if self.text.startswith(sign, self.at):
                self.next()
                if len(sign) == 2:
                    self.next()
                tag = None
                if sign in ("$(", "$)") and (is_letter(self.peek()) or is_digit(self.peek())):
                    tag = self.run_of("", 255, "section tag over 255 bytes").upper()
                return SAME.get(sign, sign), tag, line
        self.fault("bad byte")

    def run_of(self, word, most, fault):
        while is_letter(self.peek()) or is_digit(self.peek()) or self.peek() == ".":
            word += self.next()
            if len(word) > most:
                self.fault(fault)
        return word

    def number(self):
        base = 10
        if self.peek() == "#":
            base = 16 if self.peek(1) in ("X", "x") else 8
            if not is_digit(self.peek(1 + (base == 16)), base):
                self.fault("bad byte")
            self.next()
            if base == 16:
                self.next()
        value = 0
        while is_digit(self.peek(), base):
            value = value * base + int(self.next(), 16)
            if value > 4294967295:
                self.fault("number over 32 bits")
        return signed(value)

    def byte_of(self):
        """The next byte of a string or of a character constant."""
        byte = self.peek()
        if byte in ("\n", "\r", ""):
            self.fault("bad string")
        self.next()
        if byte != "*":
            return ord(byte)
        letter = self.peek().upper()
        if letter in ("\n", "\r", ""):
            self.fault("bad string")
        if letter not in ESCAPES:
            self.fault("bad escape")
        self.next()
        return ESCAPES[letter]

    def string(self):
        self.next()
        found = []
        while self.peek() != '"':
            if self.get and self.peek() == "*":
                self.fault("bad GET")
            if len(found) == 255 and self.peek() != "*":
                self.fault("bad string")
            found.append(self.byte_of())
            if len(found) == 256:
                self.fault("bad string")
            if self.get and not any(name.startswith(bytes(found).decode("latin-1").upper()) for name in HEADERS):
                self.fault("bad GET")
        if self.get and bytes(found).decode("latin-1").upper() not in HEADERS:
            self.fault("bad GET")
        self.next()
        return found

    def character(self):
        self.next()
        if self.peek() == "'":
            self.fault("bad string")
        value = self.byte_of()
        if self.peek() != "'":
            self.fault("bad string")
        self.next()
        return value


def is_letter(byte):
    return "A" <= byte <= "Z" or "a" <= byte <= "z"


def is_digit(byte, base=10):
    return byte != "" and byte.upper() in "0123456789ABCDEF"[:base]


def signed(value):
    return (value + 2**31) % 2**32 - 2**31


# The tree

class Parser:
    def __init__(self, tokens, line):
        self.tokens, self.now = expanded(tokens), 0
        self.tokens.append(Token("end", line))
        self.tokens[-1].at = len(tokens)

    @property
    def token(self):
        return self.tokens[self.now]

    def fault(self, token=None):
        token = token or self.token
        raise Fault(token.line, "wrong section tag" if token.kind == "wrong tag" else "unexpected symbol")

    def sees(self, *kinds):
        return self.token.kind in kinds

    def take(self, *kinds):
        if self.token.kind not in kinds:
            self.fault()
        self.now += 1
        return self.tokens[self.now - 1]

    def accept(self, kind):
        if self.sees(kind):
            return self.take(kind)

    def section(self):
        found = []
        while not self.sees("end"):
            if not self.accept(";"):
                found.append(self.declaration(False))
        return found

    def declaration(self, in_block):
        first = self.take("LET", "MANIFEST", "STATIC", "GLOBAL")
        if first.kind == "LET":
            definitions = [self.definition(in_block)]
            while self.accept("AND"):
                definitions.append(self.definition(in_block))
            return Node("LET", first, definitions=definitions)
        self.take("$(")
        items = []
        while not items or not self.sees("$)"):
            name = self.take("name")
            self.take("=", ":")
            items.append((name, self.expression()))
            if not self.sees("$)"):
                self.take(";")
                while self.accept(";"):
                    pass
        self.take("$)")
        return Node(first.kind, first, items=items)

    def definition(self, in_block):
        name = self.take("name")
        if self.accept("("):
            formals = []
            if self.sees("name"):
                formals = self.names(self.take("name"))
            self.take(")")
            if self.take("BE", "=").kind == "BE":
                return Node("routine", name, name=name, formals=formals, body=self.command())
            return Node("function", name, name=name, formals=formals, body=self.expression())
        if not in_block:
            self.fault()
        names = self.names(name)
        self.take("=")
        items = []
        for k in range(len(names)):
            if k:
                self.take(",")
            vec = self.accept("VEC")
            items.append((bool(vec), self.expression(k + 1 < len(names))))
        return Node("variables", name, names=names, items=items)

    def names(self, first):
        found = [first]
        while self.accept(","):
            found.append(self.take("name"))
        return found

    def block(self):
        first = self.take("$(")
        declarations, commands, free = [], [], True  # free: whether a command may stand here
        while not self.sees("$)"):
            if self.accept(";"):
                free = True
            elif self.sees("LET", "MANIFEST", "STATIC", "GLOBAL") and not commands:
                declarations.append(self.declaration(True))
                free = False
            elif free:
                commands.append(self.command())
                free = False
            else:
                self.fault()
        self.take("$)")
        return Node("block", first, declarations=declarations, commands=commands)

    def command(self, may_be_empty=False):
        if may_be_empty and self.sees("$)", ";", "REPEAT", "REPEATWHILE", "REPEATUNTIL", "end", "OR", "AND", ")", ",", "DO", "wrong tag") or may_be_empty and not self.begins():
            return None
        found = self.one_command()
        while self.sees("REPEAT", "REPEATWHILE", "REPEATUNTIL"):
            token = self.take("REPEAT", "REPEATWHILE", "REPEATUNTIL")
            test = None if token.kind == "REPEAT" else self.expression()
            found = Node(token.kind, token, body=found, test=test)
        return found

    def begins(self):
        return self.token.kind in BEGINS_COMMAND | {"CASE", "DEFAULT", "name", "number", "character", "string", "TRUE", "FALSE", "?", "(", "VALOF", "TABLE"} | set(PREFIXES)

    def one_command(self):
        token = self.token
        kind = token.kind
        if kind == "$(":
            return self.block()
        if kind in ("BREAK", "LOOP", "ENDCASE", "RETURN", "FINISH"):
            return Node(kind, self.take(kind))
        if kind == "GOTO":
            self.take(kind)
            return Node(kind, token, name=self.take("name"))
        if kind in ("IF", "UNLESS", "WHILE", "UNTIL"):
            self.take(kind)
            test = self.expression()
            self.take("DO")
            return Node(kind, token, test=test, body=self.command())
        if kind == "TEST":
            self.take(kind)
            test = self.expression()
            self.take("DO")
            body = self.command()
            self.take("OR")
            return Node(kind, token, test=test, body=body, other=self.command())
        if kind == "FOR":
            self.take(kind)
            name = self.take("name")
            self.take("=")
            start = self.expression()
            self.take("TO")
            limit, step = self.expression(), None
            if self.accept("BY"):
                step = self.expression()
            self.take("DO")
            return Node(kind, token, name=name, start=start, limit=limit, step=step, body=self.command())
        if kind == "SWITCHON":
            self.take(kind)
            test = self.expression()
            self.take("INTO")
            return Node(kind, token, test=test, body=self.command())
        if kind == "RESULTIS":
            self.take(kind)
            return Node(kind, token, value=self.expression())
        if kind in ("CASE", "DEFAULT"):
            self.take(kind)
            value = self.expression() if kind == "CASE" else None
            self.take(":")
            return Node(kind, token, value=value, body=self.command(True))
        if kind == "name" and self.tokens[self.now + 1].kind == ":":
            self.take("name")
            self.take(":")
            return Node("label", token, name=token, body=self.command(True))
        places = [self.expression()]
        while self.accept(","):
            places.append(self.expression())
        if len(places) == 1 and places[0].kind == "call" and not self.sees(":="):
            return Node("call command", token, call=places[0])
        self.take(":=")
        values = []
        for k in range(len(places)):
            if k:
                self.take(",")
            values.append(self.expression(k + 1 < len(places)))
        return Node("assignment", token, places=places, values=values)

    def expression(self, comma=False, row=12):
        """An expression of the rows up to `row`. A comma that is due after it can't follow a TABLE."""
        left = self.operand(comma)
        while True:
            token = self.token
            if token.kind == "(":
                self.take("(")
                arguments = []
                if not self.sees(")"):
                    arguments.append(self.expression())
                    while self.accept(","):
                        arguments.append(self.expression())
                self.take(")")
                left = Node("call", left, procedure=left, arguments=arguments, symbol=token)
            elif token.kind == "->" and row == 12:
                self.take("->")
                yes = self.expression(True)
                self.take(",")
                return Node("->", left, test=left, yes=yes, no=self.expression(comma), symbol=token)
            elif ROWS.get(token.kind) == 6 and row >= 6:
                left = self.relations(left, comma)
            elif ROWS.get(token.kind, 99) <= row:
                self.take(token.kind)
                left = Node("binary", left, operator=token.kind, left=left, right=self.expression(comma, ROWS[token.kind] - 1), symbol=token)
            else:
                return left

    def relations(self, left, comma):
        """The relations from here on: of a chain, the operand between two of them is twice in the tree."""
        whole = None
        while ROWS.get(self.token.kind) == 6:
            token = self.take(self.token.kind)
            right = self.expression(comma, 5)
            one = Node("binary", left, operator=token.kind, left=left, right=right, symbol=token)
            whole = one if whole is None else Node("binary", whole, operator="&", left=whole, right=one, symbol=token)
            left = copied(right, right.at, self.tokens[self.now - 1].at)
        return whole

    def operand(self, comma):
        token = self.token
        kind = token.kind
        if kind in PREFIXES:
            self.take(kind)
            return Node("prefix", token, operator=kind, right=self.expression(comma, PREFIXES[kind] - 1))
        if kind == "(":
            self.take("(")
            inside = self.expression()
            self.take(")")
            return Node("()", token, inside=inside)
        if kind == "VALOF":
            self.take(kind)
            return Node(kind, token, body=self.command())
        if kind == "TABLE":
            if comma:
                self.fault()
            self.take(kind)
            items = [self.expression()]
            while self.accept(","):
                items.append(self.expression())
            return Node(kind, token, items=items)
        self.take("name", "number", "character", "string", "TRUE", "FALSE", "?")
        return Node(kind, token, value=token.value)


def copied(part, first, last):
    """A copy of a part of the tree, whose places are all after the last one of the part."""
    if isinstance(part, (list, tuple)):
        return [copied(one, first, last) for one in part]
    if not isinstance(part, (Node, Token)):
        return part
    other = copy.copy(part)
    other.__dict__.update((name, copied(value, first, last)) for name, value in part.__dict__.items())
    other.at = last + Fraction(part.at - first + 1, last - first + 2) if part.at <= last else part.at
    return other


def expanded(tokens):
    """The symbols with a plain `$)` for each section that a tagged one closes."""
    found, opened = [], []
    for token in tokens:
        if token.kind == "$(":
            opened.append(token.value)
        if token.kind != "$)" or token.value is None and not opened:
            found.append(token)
            continue
        if token.value is not None and token.value not in opened or token.value is None and opened[-1] is not None:
            found.append(copy.copy(token))
            found[-1].kind = "wrong tag"
            return found
        closed = None
        while opened:
            closed = opened.pop()
            found.append(token)
            if token.value is None or closed == token.value:
                break
    return found


# Names

class Binding:
    """What a name means: kind is manifest, static, global, dynamic or label."""

    def __init__(self, kind, value=None, procedure=None):
        self.kind, self.value, self.procedure = kind, value, procedure


class Names:
    """Binds the names of a section, numbers its labels, and collects the faults with their places."""

    def __init__(self):
        self.faults, self.labels, self.procedures, self.data, self.sets = [], 0, [], [], {}

    def fault(self, node, number, name=""):
        self.faults.append((node.at, number, node.line, FAULTS[number] + name))

    def label(self):
        self.labels += 1
        return self.labels

    def section(self, declarations):
        scope = {}
        for declaration in declarations:
            scope = self.declaration(declaration, scope, Context())

    def declaration(self, node, scope, context):
        """Binds a declaration, and returns the scope after it."""
        if node.kind == "LET":
            return self.let(node, scope, context)
        after, seen = dict(scope), set()
        for name, expression in node.items:
            self.once(name, seen)
            # the label of a static word comes before those of its constant, which has none
            label = self.label() if node.kind == "STATIC" else None
            value = self.constant(expression, after if node.kind == "MANIFEST" else scope, context)
            if node.kind == "GLOBAL" and value is not None and not 0 <= value <= 999:
                self.fault(expression, 24)
                value = None
            after[name.value] = Binding(node.kind.lower(), label if node.kind == "STATIC" else value)
            if node.kind == "STATIC":
                self.data.append((label, ["ITEMN %s" % value]))
        return after

    def once(self, name, seen):
        if name.value in seen:
            self.fault(name, 14, name.value)
        seen.add(name.value)

    def let(self, node, scope, context):
        inside, seen = dict(scope), set()
        for definition in node.definitions:
            for name in definition.names if definition.kind == "variables" else [definition.name]:
                self.once(name, seen)
        for definition in node.definitions:
            if definition.kind == "variables":
                continue
            name = definition.name.value
            old = scope.get(name)
            definition.is_global = old is not None and old.kind == "global"
            definition.binding = old if definition.is_global else Binding("static")
            inside[name] = definition.binding
        after = dict(inside)
        for definition in node.definitions:
            if definition.kind == "variables":
                definition.bindings = [Binding("dynamic", procedure=context.procedure) for _ in definition.names]
                for is_vec, item in definition.items:
                    if is_vec:
                        size = self.constant(item, inside, context)
                        if size is not None and not 0 <= size <= 32767:
                            self.fault(item, 25)
                            size = None
                        item.size = size or 0
                    else:
                        self.expression(item, inside, context)
                after.update((name.value, binding) for name, binding in zip(definition.names, definition.bindings))
            else:
                self.procedure(definition, inside)
        return after

    def procedure(self, node, scope):
        node.entry = self.label()
        self.procedures.append(node)
        if node.is_global:
            number = node.binding.value
            if number is not None and number in self.sets:
                self.fault(node.name, 28, node.name.value)
            self.sets[number] = node.entry
        else:
            node.binding.value = self.label()
            self.data.append((node.binding.value, ["ITEML L%d" % node.entry]))
        inside, seen = dict(scope), set()
        node.bindings = []
        for name in node.formals:
            self.once(name, seen)
            node.bindings.append(Binding("dynamic", procedure=node))
            inside[name.value] = node.bindings[-1]
        context = Context(node)
        if node.kind == "routine":
            self.scope_of_labels([node.body], inside, context)
        else:
            self.expression(node.body, inside, context)

    def scope_of_labels(self, commands, scope, context):
        """Binds the commands of a scope; its labels hide other names in them."""
        scope, seen = dict(scope), set()
        for node in (label for command in commands for label in labels_of(command)):
            self.once(node.name, seen)
            node.binding = Binding("label", node, context.procedure)
            scope[node.name.value] = node.binding
        for command in commands:
            self.command(command, scope, context)

    def command(self, node, scope, context):
        if node is None:
            return
        kind = node.kind
        if kind == "block" and node.declarations:
            context = context.less(switch=None)
            for declaration in node.declarations:
                scope = self.declaration(declaration, scope, context)
            self.scope_of_labels(node.commands, scope, context)
        elif kind == "block":
            for command in node.commands:
                self.command(command, scope, context)
        elif kind == "assignment":
            for place in node.places:
                self.place(place, scope, context)
            for value in node.values:
                self.expression(value, scope, context)
        elif kind == "call command":
            self.expression(node.call, scope, context)
        elif kind == "GOTO":
            binding = scope.get(node.name.value)
            if binding is None or binding.kind == "dynamic":
                self.use(node.name, scope, context)
            if binding and (binding.kind != "label" or binding.procedure is not context.procedure):
                self.fault(node.name, 23, node.name.value)
            node.target = binding.value if binding and binding.kind == "label" else None
        elif kind in ("IF", "UNLESS", "TEST", "WHILE", "UNTIL"):
            node.labels = [self.label() for _ in range({"IF": 1, "UNLESS": 1, "TEST": 2}.get(kind, 3))]
            self.condition(node.test, scope, context)
            inside = context.less(loop=node) if kind in ("WHILE", "UNTIL") else context
            self.command(node.body, scope, inside)
            if kind == "TEST":
                self.command(node.other, scope, context)
        elif kind in ("REPEAT", "REPEATWHILE", "REPEATUNTIL"):
            node.labels = [self.label() for _ in range(2 if kind == "REPEAT" else 3)]
            self.command(node.body, scope, context.less(loop=node))
            if node.test:
                self.condition(node.test, scope, context)
        elif kind == "FOR":
            node.labels = [self.label() for _ in range(4)]
            self.expression(node.start, scope, context)
            self.expression(node.limit, scope, context)
            node.by = 1 if node.step is None else self.constant(node.step, scope, context)
            node.binding = Binding("dynamic", procedure=context.procedure)
            self.scope_of_labels([node.body], dict(scope, **{node.name.value: node.binding}), context.less(loop=node, switch=None))
        elif kind == "SWITCHON":
            node.labels, node.cases, node.default = [self.label()], [], None
            self.expression(node.test, scope, context)
            self.command(node.body, scope, context.less(switch=node, endcase=node))
        elif kind in ("CASE", "DEFAULT"):
            self.case(node, scope, context)
        elif kind == "label":
            node.labels = [self.label()]
            self.command(node.body, scope, context)
        elif kind == "RESULTIS":
            node.target = context.valof
            if context.valof is None:
                self.fault(node, 22)
            self.expression(node.value, scope, context)
        elif kind == "RETURN":
            if context.procedure.kind != "routine":
                self.fault(node, 22)
        elif kind in ("BREAK", "LOOP"):
            node.target = context.loop
            if context.loop is None:
                self.fault(node, 20)
        elif kind == "ENDCASE":
            node.target = context.endcase
            if context.endcase is None:
                self.fault(node, 21)

    def case(self, node, scope, context):
        node.labels, switch = [self.label()], context.switch
        if switch is None:
            self.fault(node, 21)
        if node.kind == "CASE":
            value = self.constant(node.value, scope, context)
            if switch and value is not None and value in [old for old, _ in switch.cases]:
                self.fault(node, 18)
            if switch:
                switch.cases.append((value, node))
        elif switch:
            if switch.default:
                self.fault(node, 19)
            switch.default = node
        self.command(node.body, scope, context)

    def place(self, node, scope, context, of_address=False):
        """A destination of `:=`, or the operand of `@`."""
        inside = node
        while inside.kind == "()":
            inside = inside.inside
        self.expression(node, scope, context)
        if inside.kind == "name":
            # (a label, and a name that is not declared, has its own fault, which comes after a parenthesis)
            if inside.binding and inside.binding.kind in ("static", "global", "dynamic"):
                return
            if inside is node and (inside.binding is None or inside.binding.kind == "label"):
                return
        elif inside.kind == "prefix" and inside.operator == "!":
            return
        elif inside.kind == "binary" and inside.operator in ("!", "%") and not (of_address and inside.operator == "%"):
            return
        self.fault(node, 27)

    def expression(self, node, scope, context):
        kind = node.kind
        if kind == "name":
            node.binding = self.use(node, scope, context)
        elif kind == "()":
            self.expression(node.inside, scope, context)
        elif kind == "prefix":
            if node.operator == "@":
                self.place(node.right, scope, context, True)
            else:
                self.expression(node.right, scope, context)
        elif kind == "binary":
            self.expression(node.left, scope, context)
            self.expression(node.right, scope, context)
        elif kind == "call":
            self.expression(node.procedure, scope, context)
            for argument in node.arguments:
                self.expression(argument, scope, context)
        elif kind == "->":
            node.labels = [self.label(), self.label()]
            self.condition(node.test, scope, context)
            self.expression(node.yes, scope, context)
            self.expression(node.no, scope, context)
        elif kind == "VALOF":
            node.labels = [self.label()]
            self.scope_of_labels([node.body], scope, Context(context.procedure, valof=node))
        elif kind == "TABLE":
            node.labels = [self.label()]
            values = [self.constant(item, scope, context) for item in node.items]
            self.data.append((node.labels[0], ["ITEMN %s" % value for value in values]))

    def use(self, node, scope, context):
        binding = scope.get(node.value)
        if binding is None:
            self.fault(node, 13, node.value)
        elif binding.kind == "label":
            self.fault(node, 23, node.value)
        elif binding.kind == "dynamic" and binding.procedure is not context.procedure:
            self.fault(node, 15, node.value)
        return binding

    def condition(self, node, scope, context):
        if node.kind == "()":
            self.condition(node.inside, scope, context)
        elif node.kind == "prefix" and node.operator == "NOT":
            self.condition(node.right, scope, context)
        elif node.kind == "binary" and node.operator in ("&", "|"):
            node.labels = [self.label()]
            self.condition(node.left, scope, context)
            self.condition(node.right, scope, context)
        else:
            self.expression(node, scope, context)

    def constant(self, node, scope, context):
        """The value of a constant, or None where it has none."""
        kind = node.kind
        if kind in ("number", "character"):
            return node.value
        if kind in ("TRUE", "FALSE"):
            return -(kind == "TRUE")
        if kind == "()":
            return self.constant(node.inside, scope, context)
        if kind == "name":
            binding = scope.get(node.value)
            if binding is None:
                self.fault(node, 13, node.value)
            elif binding.kind == "manifest":
                return binding.value
            else:
                self.use(node, scope, context)
                self.fault(node, 16)
            return None
        if kind == "prefix" and node.operator in ("+", "-", "NOT"):
            value = self.constant(node.right, scope, context)
            return None if value is None else signed({"+": value, "-": -value, "NOT": ~value}[node.operator])
        if kind == "binary" and node.operator not in ("!", "%"):
            left, right = self.constant(node.left, scope, context), self.constant(node.right, scope, context)
            if left is None or right is None:
                return None
            if node.operator in ("/", "REM") and right == 0:
                self.fault(node, 17)
                return None
            return signed(operate(node.operator, left, right))
        for part in ("left", "right", "test", "yes", "no", "procedure"):
            if hasattr(node, part) and kind in ("binary", "->", "call"):
                self.constant(getattr(node, part), scope, context)
        self.fault(node.symbol if kind in ("binary", "->", "call") else node, 16)
        return None


class Context:
    """What is around a command: the procedure, and what BREAK, ENDCASE, CASE and RESULTIS mean."""

    def __init__(self, procedure=None, loop=None, switch=None, endcase=None, valof=None):
        self.procedure, self.loop, self.switch, self.endcase, self.valof = procedure, loop, switch, endcase, valof

    def less(self, **changes):
        other = copy.copy(self)
        other.__dict__.update(changes)
        return other


def labels_of(node):
    """The labelled commands whose scope is around a command."""
    if node is None or node.kind == "FOR" or node.kind == "block" and node.declarations:
        return []
    parts = node.commands if node.kind == "block" else [getattr(node, part, None) for part in ("body", "other")]
    return ([node] if node.kind == "label" else []) + [label for part in parts for label in labels_of(part)]


def operate(operator, x, y):
    if operator in ("/", "REM"):
        quotient = abs(x) // abs(y) * (1 if (x < 0) == (y < 0) else -1)
        return quotient if operator == "/" else x - y * quotient
    if operator in ("<<", ">>"):
        x %= 2**32
        return 0 if not 0 <= y < 32 else x << y if operator == "<<" else x >> y
    return {"*": lambda: x * y, "+": lambda: x + y, "-": lambda: x - y, "=": lambda: -(x == y), "~=": lambda: -(x != y), "<": lambda: -(x < y), ">": lambda: -(x > y),
            "<=": lambda: -(x <= y), ">=": lambda: -(x >= y), "&": lambda: x & y, "|": lambda: x | y, "EQV": lambda: ~(x ^ y), "NEQV": lambda: x ^ y}[operator]()


# The statements

class Writer:
    """Writes the statements of a procedure. `s` is the depth at a part, as in docs/SCHEME.md."""

    def __init__(self, names):
        self.names, self.out, self.deepest = names, [], 0

    def put(self, depth, *statements):
        """Statements after which the depth is this one."""
        self.deepest = max(self.deepest, depth)
        self.out.extend(statements)

    def procedure(self, node):
        for slot, binding in enumerate(node.bindings, 2):
            binding.value = slot
        name, s = node.name.value, 2 + len(node.formals)
        self.put(s, " ".join(["ENTRY L%d %d" % (node.entry, len(name))] + [str(ord(c)) for c in name]), "SAVE %d" % s)
        if node.kind == "routine":
            self.command(node.body, s)
            self.put(s, "RTRN", "ENDPROC")
        else:
            self.value(node.body, s)
            self.put(s, "FNRN", "ENDPROC")
        if self.deepest > 65535:
            self.names.fault(node.name, 26)

    def value(self, node, s):
        """Pushes a value."""
        kind = node.kind
        if kind in ("number", "character"):
            self.put(s + 1, "LN %d" % node.value)
        elif kind in ("TRUE", "FALSE", "?"):
            self.put(s + 1, "QUERY" if kind == "?" else kind)
        elif kind == "string":
            self.put(s + 1, " ".join(["LSTR %d" % len(node.value)] + ["%d" % byte for byte in node.value]))
        elif kind == "name":
            self.name(node.binding, s, "LP", "LG", "LL")
        elif kind == "()":
            self.value(node.inside, s)
        elif kind == "prefix" and node.operator == "@":
            self.address(node.right, s)
        elif kind == "prefix":
            self.value(node.right, s)
            if node.operator != "+":
                self.put(s + 1, {"-": "NEG", "NOT": "NOT", "!": "RV"}[node.operator])
        elif kind == "binary":
            self.value(node.left, s)
            self.value(node.right, s + 1)
            self.put(s + 1, *(("PLUS", "RV") if node.operator == "!" else (STATEMENTS[node.operator],)))
        elif kind == "call":
            self.call(node, s, "FNAP")
            self.put(s + 1)
        elif kind == "->":
            a, b = node.labels
            self.jump(node.test, False, a, s)
            self.value(node.yes, s)
            self.put(s, "RES L%d" % b, "LAB L%d" % a)
            self.value(node.no, s)
            self.put(s + 1, "RES L%d" % b, "LAB L%d" % b, "RSTACK %d" % s)
        elif kind == "VALOF":
            note_depths([node.body], s)
            self.command(node.body, s)
            self.put(s + 1, "LAB L%d" % node.labels[0], "RSTACK %d" % s)
        elif kind == "TABLE":
            self.put(s + 1, "LLL L%d" % node.labels[0])

    def name(self, binding, s, dynamic, of_global, static):
        kind, value = (binding.kind, binding.value) if binding else (None, 0)
        self.put(s + 1, "LN %s" % value if kind == "manifest" else "%s %s" % (dynamic, value) if kind == "dynamic" else
                 "%s %s" % (of_global, value) if kind == "global" else "%s L%s" % (static, value))

    def call(self, node, s, statement):
        self.put(s + 2, "STACK %d" % (s + 2))
        for k, argument in enumerate(node.arguments):
            self.value(argument, s + 2 + k)
        self.value(node.procedure, s + 2 + len(node.arguments))
        self.put(s, "%s %d" % (statement, s))

    def address(self, node, s):
        """Pushes the address of a place."""
        while node.kind == "()":
            node = node.inside
        if node.kind == "name" and node.binding and node.binding.kind != "manifest":
            self.name(node.binding, s, "LLP", "LLG", "LLL")
        elif node.kind == "prefix" and node.operator == "!":
            self.value(node.right, s)
        elif node.kind == "binary" and node.operator == "!":
            self.value(node.left, s)
            self.value(node.right, s + 1)
            self.put(s + 1, "PLUS")
        else:
            self.value(node, s)

    def store(self, node, s):
        """Stores the item in slot s."""
        while node.kind == "()":
            node = node.inside
        if node.kind == "name" and node.binding and node.binding.kind in ("dynamic", "global", "static"):
            kind, value = node.binding.kind, node.binding.value
            self.put(s, {"dynamic": "SP %s", "global": "SG %s", "static": "SL L%s"}[kind] % value)
        elif node.kind == "binary" and node.operator == "%":
            self.value(node.left, s + 1)
            self.value(node.right, s + 2)
            self.put(s, "PUTBYTE")
        else:
            self.address(node, s + 1)
            self.put(s, "STIND")

    def jump(self, node, truth, label, s):
        """Jumps to a label where the truth of a condition is this one."""
        if node.kind == "()":
            self.jump(node.inside, truth, label, s)
        elif node.kind == "prefix" and node.operator == "NOT":
            self.jump(node.right, not truth, label, s)
        elif node.kind == "binary" and node.operator in ("&", "|"):
            if truth == (node.operator == "|"):
                self.jump(node.left, truth, label, s)
                self.jump(node.right, truth, label, s)
            else:
                self.jump(node.left, not truth, node.labels[0], s)
                self.jump(node.right, truth, label, s)
                self.put(s, "LAB L%d" % node.labels[0])
        else:
            self.value(node, s)
            self.put(s, "%s L%d" % ("JT" if truth else "JF", label))

    def go(self, label, depth, s):
        self.put(max(s, depth), "STACK %d" % depth, "JUMP L%d" % label, "STACK %d" % s)

    def command(self, node, s):
        if node is None:
            return
        kind, labels = node.kind, getattr(node, "labels", None)
        node.depth = s
        if kind == "block":
            depth = s
            for declaration in node.declarations:
                depth = self.declaration(declaration, depth)
            note_depths(node.commands, depth)
            for command in node.commands:
                self.command(command, depth)
            if node.declarations:
                self.put(s, "STACK %d" % s)
        elif kind == "assignment":
            for place, value in zip(node.places, node.values):
                self.value(value, s)
                self.store(place, s)
        elif kind == "call command":
            self.call(node.call, s, "RTAP")
        elif kind == "GOTO":
            if node.target:
                self.go(node.target.labels[0], node.target.depth, s)
        elif kind in ("label", "CASE", "DEFAULT"):
            self.put(s, "LAB L%d" % labels[0])
            self.command(node.body, s)
        elif kind in ("IF", "UNLESS"):
            self.jump(node.test, kind == "UNLESS", labels[0], s)
            self.command(node.body, s)
            self.put(s, "LAB L%d" % labels[0])
        elif kind == "TEST":
            self.jump(node.test, False, labels[0], s)
            self.command(node.body, s)
            self.put(s, "JUMP L%d" % labels[1], "LAB L%d" % labels[0])
            self.command(node.other, s)
            self.put(s, "LAB L%d" % labels[1])
        elif kind in ("WHILE", "UNTIL"):
            node.to_loop, node.to_break = (labels[0], s), (labels[2], s)
            self.put(s, "JUMP L%d" % labels[0], "LAB L%d" % labels[1])
            self.command(node.body, s)
            self.put(s, "LAB L%d" % labels[0])
            self.jump(node.test, kind == "WHILE", labels[1], s)
            self.put(s, "LAB L%d" % labels[2])
        elif kind == "REPEAT":
            node.to_loop, node.to_break = (labels[0], s), (labels[1], s)
            self.put(s, "LAB L%d" % labels[0])
            self.command(node.body, s)
            self.put(s, "JUMP L%d" % labels[0], "LAB L%d" % labels[1])
        elif kind in ("REPEATWHILE", "REPEATUNTIL"):
            node.to_loop, node.to_break = (labels[1], s), (labels[2], s)
            self.put(s, "LAB L%d" % labels[0])
            self.command(node.body, s)
            self.put(s, "LAB L%d" % labels[1])
            self.jump(node.test, kind == "REPEATWHILE", labels[0], s)
            self.put(s, "LAB L%d" % labels[2])
        elif kind == "FOR":
            self.loop(node, s)
        elif kind == "SWITCHON":
            node.to_end = (labels[0], s)
            self.value(node.test, s)
            default = node.default.labels[0] if node.default else labels[0]
            self.put(s, " ".join(["SWITCHON %d L%d" % (len(node.cases), default)] + ["%s L%d" % (value, case.labels[0]) for value, case in node.cases]))
            self.command(node.body, s)
            self.put(s, "LAB L%d" % labels[0])
        elif kind == "RESULTIS":
            self.value(node.value, s)
            self.put(s, "RES L%d" % node.target.labels[0] if node.target else "")
        elif kind in ("BREAK", "LOOP"):
            if node.target:
                self.go(*(node.target.to_break if kind == "BREAK" else node.target.to_loop), s)
        elif kind == "ENDCASE":
            if node.target:
                self.go(*node.target.to_end, s)
        else:
            self.put(s, "RTRN" if kind == "RETURN" else kind)

    def loop(self, node, s):
        a, b, c, d = node.labels
        self.value(node.start, s)
        self.value(node.limit, s + 1)
        node.binding.value = s
        node.to_loop, node.to_break = (c, s + 2), (d, s + 2)
        self.put(s + 2, "STORE", "JUMP L%d" % a, "LAB L%d" % b)
        note_depths([node.body], s + 2)
        self.command(node.body, s + 2)
        by = node.by or 0
        self.put(s + 4, "LAB L%d" % c, "LP %d" % s, "LN %d" % by, "PLUS", "SP %d" % s, "LAB L%d" % a, "LP %d" % s, "LP %d" % (s + 1), "GE" if by < 0 else "LE", "JT L%d" % b)
        self.put(s, "LAB L%d" % d, "STACK %d" % s)

    def declaration(self, node, s):
        """Makes the variables of a declaration, and returns the depth after it."""
        if node.kind != "LET":
            return s
        variables = [definition for definition in node.definitions if definition.kind == "variables"]
        for definition in variables:
            for binding, (is_vec, item) in zip(definition.bindings, definition.items):
                if is_vec:
                    self.put(s + item.size + 2, "STACK %d" % (s + item.size + 1), "LLP %d" % s)
                    s += item.size + 1
                else:
                    self.value(item, s)
                binding.value = s
                s += 1
        if variables:
            self.put(s, "STORE")
        return s


def note_depths(commands, s):
    """The depth at each label of a scope, since a GOTO may come before it."""
    for command in commands:
        for label in labels_of(command):
            label.depth = s


def compiled(tokens, line):
    """The OCODE of a section, as lines. Raises its fault."""
    names = Names()
    tree = Parser(tokens, line).section()
    names.section(tree)
    out = []
    for node in names.procedures:
        writer = Writer(names)
        note_depths([node.body] if node.kind == "routine" else [], 2 + len(node.formals))
        writer.procedure(node)
        out += writer.out
    if names.faults:
        _, _, at, text = min(names.faults)
        raise Fault(at, text)
    for label, items in sorted(names.data):
        out += ["DATALAB L%d" % label] + items
    return out + [" ".join(["GLOBAL %d" % len(names.sets)] + ["%d L%d" % pair for pair in names.sets.items()])]


def translate(text):
    """The OCODE of a source, and the line of its fault or None."""
    lexer, out, more = Lexer(text), [], True
    try:
        while more:
            tokens, more = lexer.section()
            if tokens:
                out += compiled(tokens, lexer.line)
    except RecursionError:
        return out, "line %d: nested too deeply" % tokens[0].line
    except Fault as fault:
        return out, "line %d: %s" % fault.args
    return out, None


if __name__ == "__main__":
    sys.setrecursionlimit(LEVELS)
    code, told = translate(sys.stdin.buffer.read().decode("latin-1"))
    sys.stdout.write("".join(line + "\n" for line in code))
    if told:
        print(told, file=sys.stderr)
        sys.exit(101)
