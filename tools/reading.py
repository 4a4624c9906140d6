"""Reads scripts by the rules of docs/GRAMMAR.md and docs/EXPRESSIONS.md as they are written below."""
import re
import sys
from dataclasses import dataclass

# At the limit of depth about 20 calls are open for each bracket.
sys.setrecursionlimit(20_000)


# ---- gaps, tokens and bytes: docs/GRAMMAR.md

LIMIT = 256
WHITE = re.compile(rb"[ \t\r\n]*")
PLAIN_TOKEN = re.compile(rb"[^ \t\n(){};,]+")
PATTERN_NAME = re.compile(rb"[^) \t\n\r\f]+")
QUOTED = re.compile(rb'[^"]*')


class Stop(Exception):
    """Why reading stops, as a fault and its position."""

    def __init__(self, fault, position):
        super().__init__(f"{fault} {position}")
        self.fault, self.position = fault, position


class Cursor:
    """Bytes that are read from left to right."""

    def __init__(self, text):
        self.text, self.at, self.depth = text, 0, 0

    def begins(self, piece):
        return self.text.startswith(piece, self.at)

    def syntax(self):
        raise Stop("Syntax", self.at)

    def run(self, pattern):
        """The bytes that the pattern takes."""
        found = pattern.match(self.text, self.at)
        if found is None:
            self.syntax()
        self.at = found.end()
        return found.group()

    def white(self):
        self.run(WHITE)

    def gap(self):
        self.white()
        while True:
            if self.begins(b"#"):
                self.at = self.after(b"\n", "Syntax", self.at + 1) - 1
            elif self.begins(b"/*"):
                self.at = self.after(b"*/", "UnclosedComment", self.at)
            else:
                return
            self.white()

    def after(self, end, fault, position):
        """The position after the first such end, which begins one byte further on at least."""
        found = self.text.find(end, self.at + 1)
        if found < 0:
            raise Stop(fault, position)
        return found + len(end)

    def take(self, piece):
        """These bytes, and nothing after them."""
        if not self.begins(piece):
            self.syntax()
        self.at += len(piece)

    def symbol(self, piece):
        self.take(piece)
        self.gap()

    def optional(self, piece):
        """These bytes, if they are ahead, and a gap."""
        if self.begins(piece):
            self.take(piece)
        self.gap()

    def first_of(self, pieces):
        """The first of these bytes that is ahead, and the gap after it; None, and no gap, where none is."""
        for piece in pieces:
            if self.begins(piece):
                self.symbol(piece)
                return piece
        return None

    def token(self):
        """The content of a token, and whether it is in quotes."""
        if not self.begins(b'"'):
            return self.run(PLAIN_TOKEN), False
        self.at += 1
        content = self.run(QUOTED)
        self.take(b'"')
        return content, True

    def word(self):
        token = self.token()
        self.gap()
        return token

    def name(self):
        return self.word()[0]

    def until(self, end, read):
        """What is read again and again until these bytes are ahead, and they and the gap after them."""
        found = []
        while not self.begins(end):
            found.append(read())
        self.symbol(end)
        return found

    def deeper(self, read, *arguments):
        """What is read one deeper."""
        self.room(0)
        self.depth += 1
        found = read(*arguments)
        self.depth -= 1
        return found

    def room(self, depth):
        """Stops where what is that deep may not be one deeper here."""
        if self.depth + depth >= LIMIT:
            raise Stop("TooDeep", self.at)


# ---- expressions: docs/EXPRESSIONS.md

TERNARY, FIRST_CHAIN, COMPARISON, SIGN = 1, 2, 4, 11
OPERATORS = {2: [b"||"], 3: [b"&&"], 4: [b"<=", b">=", b"==", b"!=", b"<", b">"], 5: [b"|"], 6: [b"^"], 7: [b"&"],
             8: [b"<<", b">>"], 9: [b"+", b"-"], 10: [b"*", b"/", b"%"]}
NOT_BEFORE = {b"|": b"||", b"&": b"&&", b"!": b"!="}
IDENTIFIER = re.compile(rb"[A-Za-z_.][A-Za-z0-9_.]*")
DIGIT = re.compile(rb"[0-9]")
NUMBER = re.compile(rb"(0[xX][0-9a-fA-F]+|0|[1-9][0-9]*)([KkMm]?)(?![A-Za-z0-9_.])")
FACTORS = {b"": 1, b"k": 1 << 10, b"m": 1 << 20}
SEGMENT_NAME = re.compile(rb'[^"]+')
QUESTIONS = [b"SIZEOF", b"ALIGNOF", b"ADDR", b"LOADADDR", b"ORIGIN", b"LENGTH", b"DEFINED"]
WORD = 1 << 64


@dataclass
class Value:
    """An expression that was read, and its depth."""
    tree: object
    depth: int = 0


def over(word, *parts):
    """One more than the deepest part."""
    return Value((word, *(part.tree for part in parts)), 1 + max(part.depth for part in parts))


class Expressions(Cursor):
    def expression(self):
        return self.level(TERNARY).tree

    def level(self, number):
        if number == TERNARY:
            return self.ternary()
        if number == SIGN:
            return self.signed()
        value = self.level(number + 1)
        while (operator := self.operator_ahead(OPERATORS[number])) is not None:
            self.at += len(operator)
            self.room(value.depth)
            value = over(operator.decode(), value, self.deeper(self.level, number + 1))
            if number == COMPARISON:
                break
        return value

    def operator_ahead(self, operators):
        for operator in operators:
            if self.begins(operator):
                return None if self.begins(NOT_BEFORE.get(operator, b"\0\0")) else operator
        return None

    def ternary(self):
        condition = self.level(FIRST_CHAIN)
        if not self.begins(b"?"):
            return condition
        self.take(b"?")
        self.room(condition.depth)
        one = self.deeper(self.level, TERNARY)
        self.take(b":")
        return over("?", condition, one, self.deeper(self.level, TERNARY))

    def signed(self):
        self.white()
        sign = self.operator_ahead([b"!", b"~", b"-"])
        if sign is None:
            return self.primary()
        self.at += len(sign)
        return over(sign.decode(), self.deeper(self.level, SIGN))

    def primary(self):
        if self.begins(b"("):
            return self.brackets()
        if DIGIT.match(self.text, self.at):
            return self.number()
        name = self.run(IDENTIFIER)
        self.white()
        if name == b".":
            return Value(".")
        if self.begins(b"("):
            return self.call(name)
        return Value("SIZEOF_HEADERS" if name == b"SIZEOF_HEADERS" else name)

    def number(self):
        found = NUMBER.match(self.text, self.at)
        if found is None or (value := int(found[1], 16 if found[1][1:2] in (b"x", b"X") else 10)) >= WORD:
            self.syntax()
        self.at = found.end()
        self.white()
        return Value(value * FACTORS[found[2].lower()] % WORD)

    def close(self):
        self.take(b")")
        self.white()

    def argument(self, before):
        """An expression one deeper, after these bytes."""
        self.take(before)
        return self.deeper(self.level, TERNARY)

    def brackets(self):
        value = self.argument(b"(")
        self.close()
        return Value(value.tree, value.depth + 1)

    def call(self, name):
        if name in QUESTIONS:
            return self.question(name.decode())
        match name:
            case b"ALIGN":
                return self.align()
            case b"MIN" | b"MAX":
                return self.pair(name.decode())
            case b"SEGMENT_START":
                return self.segment_start()
            case b"ASSERT":
                tree, depth = self.asserted(lambda: self.deeper(self.level, TERNARY))
                return Value(tree, depth + 1)
        return self.syntax()

    def question(self, word):
        self.take(b"(")
        self.room(0)
        self.white()
        name = self.run(IDENTIFIER)
        self.white()
        self.close()
        return Value((word, name), 1)

    def align(self):
        parts = [self.argument(b"(")]
        if self.begins(b","):
            parts.append(self.argument(b","))
        self.close()
        return over("ALIGN", *parts)

    def pair(self, word):
        one, other = self.argument(b"("), self.argument(b",")
        self.close()
        return over(word, one, other)

    def segment_start(self):
        self.take(b"(")
        self.white()
        self.take(b'"')
        name = self.run(SEGMENT_NAME)
        self.take(b'"')
        self.white()
        value = self.argument(b",")
        self.close()
        return Value(("SEGMENT_START", name, value.tree), value.depth + 1)

    def asserted(self, read):
        """The brackets of an ASSERT, and the depth of the condition that is read in them."""
        at = self.at
        self.symbol(b"(")
        condition = read()
        self.gap()
        self.symbol(b",")
        message = self.name()
        self.symbol(b")")
        return ("assert", at, message, condition.tree), condition.depth


# ---- statements, commands and scripts: docs/GRAMMAR.md

CHANGES = [b"+=", b"-=", b"*=", b"/=", b"<<=", b">>=", b"&=", b"|=", b"^="]
ORIGINS, LENGTHS = [b"ORIGIN", b"org", b"o"], [b"LENGTH", b"len", b"l"]
TYPES = {b"PT_NULL": 0, b"PT_LOAD": 1, b"PT_DYNAMIC": 2, b"PT_INTERP": 3, b"PT_NOTE": 4, b"PT_SHLIB": 5, b"PT_PHDR": 6,
         b"PT_TLS": 7, b"PT_GNU_EH_FRAME": 0x6474e550, b"PT_GNU_STACK": 0x6474e551, b"PT_GNU_RELRO": 0x6474e552,
         b"PT_GNU_PROPERTY": 0x6474e553, b"PT_GNU_SFRAME": 0x6474e554}
PROPERTIES = [b"FLAGS", b"FILEHDR", b"PHDRS"]
ATTRIBUTES = [b"NOLOAD", b"READONLY", b"DSECT", b"COPY", b"INFO", b"OVERLAY"]
SORTS = [b"SORT_BY_NAME", b"SORT_BY_ALIGNMENT", b"SORT"]
NESTS = {b"GROUP": "group", b"INPUT": "group", b"AS_NEEDED": "as-needed", b"OUTPUT_ARCH": "ignored"}


class Script(Expressions):
    # ---- parts of statements

    def clause(self):
        """An expression in brackets of a statement."""
        self.symbol(b"(")
        value = self.expression()
        self.gap()
        self.symbol(b")")
        return value

    def assertion(self):
        return self.asserted(lambda: self.level(TERNARY))[0]

    def provide(self, word):
        self.symbol(b"(")
        name = self.name()
        self.symbol(b"=")
        value = self.expression()
        self.gap()
        self.symbol(b")")
        self.optional(b";")
        return ("provide-hidden" if word == b"PROVIDE_HIDDEN" else "provide", name, value)

    def assigns(self):
        """Whether an assignment operator is ahead."""
        sets = self.begins(b"=") and not self.begins(b"==") and not self.begins(b"=/")
        return sets or any(self.begins(change) for change in CHANGES)

    def assignment(self, name):
        """An operator and an expression. No gap is passed after it."""
        change = self.first_of(CHANGES)
        if change is None:
            self.symbol(b"=")
            value = self.expression()
        else:
            target = Value("." if name == b"." else name)
            value = over(change[:-1].decode(), target, self.deeper(self.level, TERNARY)).tree
        return (".=", value) if name == b"." else ("=", name, value)

    # ---- contents of sections

    def pattern(self):
        if not self.begins(b"SORT"):
            return self.pattern_name()
        sort = self.first_of(SORTS)
        self.take(b"(")
        if self.begins(b"SORT"):
            raise Stop("UnsupportedNestedSort", self.at)
        self.gap()
        name = self.pattern_name()
        self.symbol(b")")
        return name if sort == b"SORT_BY_ALIGNMENT" else ("sort", name)

    def pattern_name(self):
        name = self.run(PATTERN_NAME)
        self.gap()
        return name

    def matcher(self, word, file):
        self.symbol(b"(")
        patterns = self.until(b")", self.pattern)
        return (word, "*" if file == b"*" else file, patterns)

    def kept(self):
        self.take(b"(")
        matcher = self.matcher("keep", self.name())
        self.symbol(b")")
        return matcher

    def contents_statement(self):
        name, quoted = self.word()
        word = None if quoted else name
        if self.assigns():
            statement = self.assignment(name)
        elif not self.begins(b"("):
            return ("constructors",) if word == b"CONSTRUCTORS" else self.syntax()
        elif word in (b"PROVIDE", b"PROVIDE_HIDDEN"):
            return self.provide(word)
        elif word == b"ASSERT":
            statement = self.assertion()
        else:
            statement = self.kept() if word == b"KEEP" else self.matcher("match", name)
        self.optional(b";")
        return statement

    # ---- statements of SECTIONS

    def statement(self):
        name = self.name()
        match name:
            case b"ASSERT":
                return self.assertion()
            case b"PROVIDE" | b"PROVIDE_HIDDEN":
                return self.provide(name)
        if not self.assigns():
            return self.section(name)
        assignment = self.assignment(name)
        self.gap()
        self.symbol(b";")
        return assignment

    def section(self, name):
        found = {}
        while not self.begins(b":"):
            self.item(found)
        self.symbol(b":")
        while not self.begins(b"{"):
            word = self.first_of([b"ALIGN", b"AT"]) or self.syntax()
            found[word.decode().lower()] = self.clause()
        self.symbol(b"{")
        contents = self.until(b"}", self.contents_statement)
        self.tail(found)
        self.optional(b",")
        return ("section", name, contents, *found.items())

    def item(self, found):
        before = self.at
        attribute = self.attribute()
        if attribute is None:
            self.at = before
            found["start"] = self.expression()
        else:
            found["attribute"] = attribute
        self.gap()

    def attribute(self):
        """The word of an attribute, or None where not all of one is there."""
        try:
            self.symbol(b"(")
            attribute = self.name()
            self.take(b")")
        except Stop:
            return None
        return attribute if attribute in ATTRIBUTES else None

    def tail(self, found):
        while (mark := self.first_of([b":", b">", b"="])) is not None:
            if mark == b":":
                found.setdefault("headers", []).append(self.name())
            elif mark == b">":
                found["region"] = self.name()
            else:
                found["fill"] = self.expression()
                self.gap()

    # ---- commands

    def region(self):
        name = self.name()
        self.symbol(b":")
        origin = self.named_number(ORIGINS)
        self.gap()
        self.symbol(b",")
        return ("region", name, origin, self.named_number(LENGTHS))

    def named_number(self, words):
        if self.first_of(words) is None:
            self.syntax()
        self.symbol(b"=")
        return self.expression()

    def header(self):
        name = self.name()
        header_type = self.header_type()
        self.gap()
        found = {}
        while (word := self.first_of(PROPERTIES)) is not None:
            found[word.decode().lower()] = self.flags() if word == b"FLAGS" else True
        self.optional(b";")
        return ("header", name, header_type, *found.items())

    def header_type(self):
        if not self.begins(b"PT_"):
            return self.expression()
        found = self.name()
        if found not in TYPES:
            raise Stop("Syntax", self.at)
        return TYPES[found]

    def flags(self):
        self.take(b"(")
        value = self.expression()
        self.symbol(b")")
        return value

    def formats(self):
        self.symbol(b"(")
        names = [self.name()]
        if self.begins(b","):
            for _ in range(2):
                self.symbol(b",")
                names.append(self.name())
        self.symbol(b")")
        return ("format", *names)

    def version(self):
        self.symbol(b"{")
        before, opened = self.at, 1
        while opened > 0:
            if self.at == len(self.text):
                self.syntax()
            opened += self.begins(b"{") - self.begins(b"}")
            self.at += 1
        found = self.text[before:self.at - 1]
        self.gap()
        self.optional(b";")
        return ("version", found)

    def entry(self):
        self.symbol(b"(")
        name = self.name()
        self.symbol(b")")
        return ("entry", name)

    def braces(self, word, read):
        self.symbol(b"{")
        return (word, *self.until(b"}", read))

    def nest(self, word):
        self.symbol(b"(")
        commands = self.deeper(self.until, b")", self.command)
        return (word,) if word == "ignored" else (word, *commands)

    def command(self):
        name = self.name()
        if name in NESTS:
            return self.nest(NESTS[name])
        match name:
            case b"OUTPUT_FORMAT":
                return self.formats()
            case b"ENTRY":
                return self.entry()
            case b"VERSION":
                return self.version()
            case b"SECTIONS":
                return self.braces("sections", self.statement)
            case b"MEMORY":
                return self.braces("memory", self.region)
            case b"PHDRS":
                return self.braces("phdrs", self.header)
            case b"PROVIDE" | b"PROVIDE_HIDDEN":
                return self.provide(name)
        if name != b"ASSERT" and not self.assigns():
            return ("arg", name)
        found = self.assertion() if name == b"ASSERT" else self.assignment(name)
        self.gap()
        self.optional(b";")
        return found

    def script(self):
        self.gap()
        commands = []
        while self.at < len(self.text):
            commands.append(self.command())
        return commands
