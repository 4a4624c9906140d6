"""Random expressions, their texts by the rules of docs/EXPRESSIONS.md, and their values by those of docs/VALUES.md.

No expression here is so high that its value would be refused for that.
"""
from dataclasses import dataclass, field

from comparing import Fault, name_text

WORD = 1 << 64


@dataclass
class Number:
    value: int


@dataclass
class Here:
    """The location counter."""


@dataclass
class Headers:
    """SIZEOF_HEADERS."""


@dataclass
class Symbol:
    name: str


@dataclass
class Of:
    """SIZEOF and the like, of a name."""
    word: str
    name: str


@dataclass
class Unary:
    sign: str
    part: object


@dataclass
class Binary:
    operator: str
    left: object
    right: object


@dataclass
class Call:
    """MIN or MAX."""
    word: str
    left: object
    right: object


@dataclass
class Choice:
    condition: object
    one: object
    other: object


@dataclass
class Align:
    alignment: object
    # None stands for the location counter.
    start: object


@dataclass
class Segment:
    """SEGMENT_START."""
    name: str
    default: object


@dataclass
class Assert:
    condition: object
    message: str
    line: int = 0


NODES = (Number, Here, Headers, Symbol, Of, Unary, Binary, Call, Choice, Align, Segment, Assert)


def asks_for_start(expression):
    """Whether SEGMENT_START stands in it, read or not."""
    parts = [part for part in vars(expression).values() if isinstance(part, NODES)]
    return isinstance(expression, Segment) or any(asks_for_start(part) for part in parts)


# ---- random expressions

LEVELS = {"||": 2, "&&": 3, "<=": 4, ">=": 4, "==": 4, "!=": 4, "<": 4, ">": 4, "|": 5, "^": 6, "&": 7,
          "<<": 8, ">>": 8, "+": 9, "-": 9, "*": 10, "/": 10, "%": 10}
QUESTIONS = ["SIZEOF", "ALIGNOF", "ADDR", "LOADADDR", "DEFINED"]
SEGMENTS = ["text-segment", "data-segment", "bss-segment"]


@dataclass
class Vocabulary:
    """What random expressions are made of."""
    # Makes a number from a source of random numbers.
    number: object
    symbols: list
    # The names that DEFINED asks for.
    defined: list
    sections: list
    # The names of memory regions that ORIGIN and LENGTH ask for.
    regions: list
    divisors: list
    # How often a divisor is one of these and an alignment a small number, at least.
    care: float


def random_leaf(rng, words):
    kind = rng.random()
    if kind < 0.5:
        return Number(words.number(rng))
    if kind < 0.65:
        return Here()
    if kind < 0.75:
        return Symbol(rng.choice(words.symbols))
    if kind < 0.79:
        return Headers()
    if kind < 0.83 and words.regions:
        return Of(rng.choice(["ORIGIN", "LENGTH"]), rng.choice(words.regions))
    word = rng.choice(QUESTIONS)
    return Of(word, rng.choice(words.defined if word == "DEFINED" else words.sections))


def random_expression(rng, depth, words):
    def part():
        return random_expression(rng, depth - 1, words)
    kind = rng.random()
    if depth == 0 or kind < 0.2:
        return random_leaf(rng, words)
    if kind < 0.65:
        operator = rng.choice(list(LEVELS))
        divides = operator in "/%" and rng.random() < words.care
        return Binary(operator, part(), Number(rng.choice(words.divisors)) if divides else part())
    if kind < 0.75:
        return Unary(rng.choice("!~-"), part())
    if kind < 0.83:
        return Choice(part(), part(), part())
    if kind < 0.9:
        return Call(rng.choice(["MIN", "MAX"]), part(), part())
    if kind < 0.95:
        alignment = Number(rng.randint(1, 64)) if rng.random() >= 1 - words.care else part()
        return Align(alignment, rng.choice([None, part()]))
    if kind < 0.97:
        return Segment(rng.choice([*SEGMENTS, "other"]), part())
    condition = Binary("|", part(), Number(1)) if rng.random() >= 1.5 * (1 - words.care) else part()
    return Assert(condition, rng.choice(["m", "a b"]))


# ---- their texts: docs/EXPRESSIONS.md

# Stands before the bracket of each ASSERT until its line is known.
MARK = "\x01"


class Writer:
    """Writes expressions, with brackets where the levels want them and sometimes where they do not."""

    def __init__(self, rng):
        self.rng = rng
        self.asserts = []

    def gap(self):
        return self.rng.choice(["", "", " ", "\n"])

    def text(self, expression, level):
        own, text = self.leveled(expression)
        if own < level or self.rng.random() < 0.08:
            return f"({self.gap()}{text}{self.gap()})"
        return text

    def statement(self, expression):
        """An ASSERT as a statement has no brackets around it."""
        return self.leveled(expression)[1] if isinstance(expression, Assert) else self.text(expression, 1)

    def number(self, value):
        if value % 1024 == 0 and self.rng.random() < 0.3:
            return f"{value // 1024}{self.rng.choice('Kk')}"
        return self.rng.choice([str(value), f"0x{value:x}", f"0X{value:X}"])

    def leveled(self, expression):
        """The level of an expression, and its text. Parts are written in the order of the text."""
        match expression:
            case Number(value):
                return 12, self.number(value)
            case Here():
                return 12, "."
            case Headers():
                return 12, "SIZEOF_HEADERS"
            case Symbol(name):
                return 12, name
            case Of(word, name):
                return 12, f"{word}{self.gap()}({self.gap()}{name}{self.gap()})"
            case Unary(sign, part):
                return 11, f"{sign}{self.gap()}{self.text(part, 11)}"
            case Binary(operator, left, right):
                level = LEVELS[operator]
                first = self.text(left, 5 if level == 4 else level)
                return level, f"{first}{self.gap()}{operator}{self.gap()}{self.text(right, level + 1)}"
            case Choice(condition, one, other):
                return 1, f"{self.text(condition, 2)} ?{self.gap()}{self.text(one, 1)}:{self.text(other, 1)}"
        return 12, self.call(expression)

    def call(self, expression):
        match expression:
            case Call(word, left, right):
                return f"{word}({self.text(left, 1)},{self.text(right, 1)})"
            case Align(alignment, None):
                return f"ALIGN({self.text(alignment, 1)})"
            case Align(alignment, start):
                return f"ALIGN({self.text(start, 1)}, {self.text(alignment, 1)})"
            case Segment(name, default):
                return f'SEGMENT_START({self.gap()}"{name}"{self.gap()},{self.text(default, 1)})'
            case Assert(condition, message):
                self.asserts.append(expression)
                return f'ASSERT{self.gap()}{MARK}({self.text(condition, 1)}, "{message}")'

    def finished(self, text):
        """The text without marks, when each ASSERT has its line."""
        ends = text.split(MARK)
        line = 1
        for command, before in zip(self.asserts, ends):
            line += before.count("\n")
            command.line = line
        return "".join(ends)


# ---- numbers: docs/VALUES.md

COMPARISONS = ["<", ">", "<=", ">=", "==", "!="]


def signed(number):
    return number - WORD if number >= WORD // 2 else number


def quotient(left, right):
    whole = abs(signed(left)) // abs(signed(right))
    return whole if (signed(left) < 0) == (signed(right) < 0) else -whole


def operated(operator, left, right):
    """What an operator makes of two numbers; a divisor is not 0."""
    match operator:
        case "+" | "-" | "*" | "|" | "^" | "&":
            sums = {"+": left + right, "-": left - right, "*": left * right}
            return {**sums, "|": left | right, "^": left ^ right, "&": left & right}[operator] % WORD
        case "/":
            return quotient(left, right) % WORD
        case "%":
            return (signed(left) - quotient(left, right) * signed(right)) % WORD
        case "<<":
            return (left << right % 64) % WORD
        case ">>":
            return left >> right % 64
    tests = {"<": left < right, ">": left > right, "<=": left <= right, ">=": left >= right, "==": left == right}
    return int(tests.get(operator, left != right))


def signed_by(sign, number):
    return {"!": int(number == 0), "~": WORD - 1 - number, "-": -number % WORD}[sign]


def refuse_zero(operator, divisor, statement):
    if divisor == 0:
        fault = "22 DivisionByZero" if operator == "/" else "23 ModuloByZero"
        raise Fault(f"fault {fault} statement={statement}")


def constant(expression, statement):
    """The number of an expression that may ask nothing of a layout."""
    def of(part):
        return constant(part, statement)
    match expression:
        case Number(value):
            return value
        case Unary(sign, part):
            return signed_by(sign, of(part))
        case Binary("&&" | "||" as operator, left, right):
            decides = (of(left) != 0) == (operator == "||")
            return int(operator == "||") if decides else int(of(right) != 0)
        case Binary("/" | "%" as operator, left, right):
            divisor = of(right)
            refuse_zero(operator, divisor, statement)
            return operated(operator, of(left), divisor)
        case Binary(operator, left, right):
            return operated(operator, of(left), of(right))
        case Call(word, left, right):
            return (min if word == "MIN" else max)(of(left), of(right))
        case Choice(condition, one, other):
            return of(one) if of(condition) != 0 else of(other)
    raise Fault(f"fault 13 NotConstant statement={statement}")


# ---- values: docs/VALUES.md

@dataclass
class Value:
    number: int
    # A part of it counts from the start of the section that it is read in.
    relative: bool = False
    # A part of it is an address.
    absolute: bool = False


def over(number, *parts):
    """This number, with the marks of the parts."""
    return Value(number, any(part.relative for part in parts), any(part.absolute for part in parts))


@dataclass
class Point:
    """Where an expression is read."""
    # What is known as `.` there, as Values has it; None stands for 0.
    dot: object
    # The number of the section in whose contents it stands.
    section: object = None


@dataclass
class OfRow:
    """A symbol of the table, behind the start of a row in a section."""
    row: int
    section: int
    offset: int


@dataclass
class OfScript:
    expression: object
    point: Point


@dataclass
class Scope:
    """What script and table say of names."""
    # Names of sections, by their numbers.
    names: list
    alignments: list
    # The definition that counts, by the name of its symbol.
    definitions: dict = field(default_factory=dict)
    # The origin and length of each memory region, by its name.
    regions: dict = field(default_factory=dict)
    # The starts that are asked for, by the names of segments.
    starts: dict = field(default_factory=dict)
    header_size: int = 0

    def section(self, name):
        return self.names.index(name) if name in self.names else None


class Values:
    """Evaluates over what is known, in the statement at one place.

    Numbers are known by a word and a number: `start`, `load` and `end` of a section, `row` of a row, `dot` of a place,
    and `opened` of a place at which a section begins."""

    def __init__(self, scope, known, statement):
        self.scope, self.known, self.statement = scope, known, statement

    def asked(self, word, number, name):
        if (word, number) not in self.known:
            raise Fault(f"fault 27 NotLaidOut statement={self.statement} name={name_text(name)}")
        return self.known[word, number]

    def of_section(self, word, number):
        return self.asked(word, number, self.scope.names[number])

    def full(self, value, point):
        """The number that a value stands for."""
        if point.section is None or (value.absolute and not value.relative):
            return value.number
        start = self.of_section("start", point.section)
        if value.number + start >= WORD:
            raise Fault(f"fault 34 Overflow left={value.number} right={start}")
        return value.number + start

    def full_value(self, expression, point, path=frozenset()):
        return self.full(self.value(expression, point, path), point)

    def dot(self, word, number):
        return self.of_section(word, number) if word == "end" else self.asked(word, number, ".")

    def here(self, point):
        dot = 0 if point.dot is None else self.dot(*point.dot)
        if point.section is None:
            return Value(dot, absolute=True)
        return Value(dot - self.of_section("start", point.section), relative=True)

    def symbol(self, name, point, path):
        if name not in self.scope.definitions:
            raise Fault(f"fault 26 UnknownSymbol name={name_text(name)}")
        if name in path:
            raise Fault(f"fault 28 SymbolCycle name={name_text(name)}")
        definition = self.scope.definitions[name]
        if isinstance(definition, OfRow):
            section, address = definition.section, self.asked("row", definition.row, name) + definition.offset
        else:
            section = definition.point.section
            address = self.full_value(definition.expression, definition.point, path | {name})
        if section is None or section != point.section:
            return Value(address, absolute=True)
        start = self.of_section("start", section)
        if address < start:
            raise Fault(f"fault 30 BeforeSection name={name_text(name)}")
        return Value(address - start, relative=True)

    def of(self, word, name):
        if word == "DEFINED":
            return Value(int(name in self.scope.definitions))
        if word in ("ORIGIN", "LENGTH"):
            return self.of_region(word, name)
        section = self.scope.section(name)
        if section is None:
            if word in ("SIZEOF", "ALIGNOF"):
                return Value(0)
            raise Fault(f"fault 25 UnknownSection name={name_text(name)}")
        if word == "ALIGNOF":
            return Value(self.scope.alignments[section])
        if word == "SIZEOF":
            end = self.of_section("end", section)
            return Value(end - self.of_section("start", section))
        return Value(self.of_section("start" if word == "ADDR" else "load", section), absolute=True)

    def of_region(self, word, name):
        if name not in self.scope.regions:
            raise Fault(f"fault 18 UnknownRegion name={name_text(name)}")
        origin, length = self.scope.regions[name]
        return Value(origin, absolute=True) if word == "ORIGIN" else Value(length)

    def segment(self, name, default, of):
        if name in self.scope.starts:
            return Value(self.scope.starts[name], absolute=True)
        value = of(default)
        return Value(value.number, value.relative, True)

    def binary(self, operator, left, right, point, of):
        if operator in ("&&", "||"):
            first = of(left)
            if (first.number != 0) == (operator == "||"):
                return over(int(first.number != 0), first)
            second = of(right)
            return over(int(second.number != 0), first, second)
        if operator in ("/", "%"):
            divisor = of(right)
            refuse_zero(operator, divisor.number, self.statement)
            first = of(left)
            return over(operated(operator, first.number, divisor.number), first, divisor)
        if operator in COMPARISONS:
            number = self.full(of(left), point)
            return Value(operated(operator, number, self.full(of(right), point)))
        first, second = of(left), of(right)
        return over(operated(operator, first.number, second.number), first, second)

    def align(self, alignment, start, point, of):
        multiple = of(alignment)
        if multiple.number == 0:
            raise Fault(f"fault 24 AlignZero statement={self.statement}")
        value = Value(self.here(point).number) if start is None else of(start)
        rounded = -(-value.number // multiple.number) * multiple.number
        if rounded >= WORD:
            raise Fault(f"fault 35 AlignOverflow value={value.number} align={multiple.number}")
        return over(rounded, multiple, value)

    def tested(self, command, of):
        value = of(command.condition)
        if value.number == 0:
            raise Fault(f"fault 36 AssertFailed line={command.line} message={name_text(command.message)}")
        return value

    def value(self, expression, point, path=frozenset()):
        def of(part):
            return self.value(part, point, path)
        match expression:
            case Number(value):
                return Value(value)
            case Here():
                return self.here(point)
            case Headers():
                return Value(self.scope.header_size)
            case Symbol(name):
                return self.symbol(name, point, path)
            case Of(word, name):
                return self.of(word, name)
            case Unary(sign, part):
                value = of(part)
                return over(signed_by(sign, value.number), value)
            case Binary(operator, left, right):
                return self.binary(operator, left, right, point, of)
            case Call(word, left, right):
                first, second = of(left), of(right)
                return over((min if word == "MIN" else max)(first.number, second.number), first, second)
            case Choice(condition, one, other):
                test = of(condition)
                side = of(one if test.number != 0 else other)
                return over(side.number, test, side)
            case Align(alignment, start):
                return self.align(alignment, start, point, of)
            case Segment(name, default):
                return self.segment(name, default, of)
            case Assert():
                return self.tested(expression, of)
