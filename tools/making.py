"""Random scripts, as trees, and tables. Most of them have a plan."""
from expressions import SEGMENTS, Align, Assert, Binary, Call, Choice, Headers, Here, Number, Of, Segment, Symbol
from expressions import Unary, Vocabulary, random_expression
from options import FORMATS, random_options
from placing import FLOATING, Assignment, Command, Constructors, Format, Header, Location, Matcher, Memory, Pattern
from placing import ProgramHeaders, Provide, Region, Row, Section, Sections, TableSymbol


LARGEST = (1 << 64) - 1

# ---- random tables and patterns

ROW_NAMES = [".a", ".b", ".ab", ".a.b", ".text", ".text.x", ".t]x", ".text.y1", "a", "-", ".ba", ".é", ".bb", "", ".A"]
FILES = ["f.o", "g.o", "lib/f.o", "é.o", "a", "f-o"]
SECTION_NAMES = [".a", ".b", ".c", ".d", ".e", ".out", ".text"]
COMMON_PATTERNS = [".a", ".b", ".a*", ".?", "*", ".text", ".text.*", ".[ab]", ".[!a]*", ".[a-c]*"]
RARE_PATTERNS = [".t*x", ".[]t]*", "\\.a", ".a\\*", ".text.?1", ".é", ".?b", ".[b-a]", "*.x", ".*b*", "a", ".[!]a]",
                 "?", "x*y"]
BAD_PATTERNS = ["**", "[", ".a\\", ".[a"]
FILE_PATTERNS = ["f.o", "*.o", "?.o", "[fg].o", "lib*", '"*"', "f\\.o", "lib/*", "é.*"]
BAD_FILE_PATTERNS = ['""', "[", "**"]
SORTS = ["", "", "SORT", "SORT_BY_NAME", "SORT_BY_ALIGNMENT"]


def random_matcher(rng):
    patterns = []
    for _ in range(rng.randint(0, 3)):
        kind = rng.random()
        names = COMMON_PATTERNS if kind < 0.9 else RARE_PATTERNS if kind < 0.998 else BAD_PATTERNS
        patterns.append(Pattern(rng.choice(SORTS), rng.choice(names)))
    kind = rng.random()
    file = rng.choice(["*"] if kind < 0.8 else FILE_PATTERNS if kind < 0.997 else BAD_FILE_PATTERNS)
    return Matcher(file.strip('"'), patterns, rng.random() < 0.2)


def random_row(rng):
    alignment = rng.choice([1, 1, 2, 4, 8, 16]) if rng.random() < 0.998 else rng.choice([0, 3, 1 << 22])
    chances = {"A": 0.85, "W": 0.3, "X": 0.25, "B": 0.3, "T": 0.1, "E": 0.06}
    letters = [letter for letter, chance in chances.items() if rng.random() < chance]
    flags = "".join(rng.sample(letters, len(letters)))
    size = rng.choice([0, 0, 1, 3, 4, 8, 17]) if rng.random() < 0.998 else LARGEST - rng.choice([0, 1, 15, 64, 4096])
    return Row(rng.choice(FILES), rng.choice(ROW_NAMES), size, alignment, flags)


def random_symbol(rng, name, rows):
    row = rng.randrange(len(rows))
    offset = rng.randint(0, rows[row].size) if rng.random() < 0.997 else min(rows[row].size + 1, LARGEST)
    return TableSymbol(name, row if rng.random() < 0.997 else len(rows), offset)


# ---- random scripts

TABLE_SYMBOLS = ["s", "t", "u", ""]
# What is defined by numbers alone, and what in any way.
CONSTANTS = ["base", "Size.1", "_k"]
SYMBOLS = ["x", "y", "z", "_e", "p.0", "q"]
CHANGES = ["+", "-", "*", "/", "<<", ">>", "&", "|", "^"]
IDLE = ["ENTRY(x)", "OUTPUT_ARCH(i386:x86-64)", "GROUP(f.o x = 1)", "a.o", "INPUT( -lc )",
        "VERSION { V { global: f; }; }"]
REGION_NAMES = ["R", "S", "RAM", "r-x", "é", ""]
HEADER_NAMES = ["text", "data", "NONE", "none", "-", "a,b", ""]
# Formats that are no format of any machine, too.
FORMAT_NAMES = [*FORMATS.values(), "elf64-bigaarch64", "elf32-littlearm", "binary", ""]


def small_number(rng):
    return rng.choice([0, 1, 1, 2, 3, 4, 8, 16, 24, 32, 64, 100, 256])


class Maker:
    """Makes one script. It keeps in mind what a placement may ask for where it stands."""

    def __init__(self, rng, symbols, options):
        self.rng, self.options = rng, options
        # Addresses that are chosen mostly rise; in some scripts they mostly fall.
        self.falls = self.chance(0.15)
        # What is above nearly all that was placed so far, or below.
        self.high = 0x20000 if self.falls else 0
        self.high_in_region = 0x10000
        self.opened, self.closed, self.defined = [], [], []
        # Symbols that ask for nothing but `.`, and those that are defined in the contents of the section at hand.
        self.simple, self.inside, self.is_inside = [], [], False
        names = rng.sample(SECTION_NAMES, len(SECTION_NAMES))
        self.names = names[:rng.choice([1, 2, 3, 4, 5, 6, 7])]
        self.symbols = [symbol for symbol in symbols if symbol] + rng.sample(SYMBOLS, rng.randint(0, len(SYMBOLS)))
        self.constants = rng.sample(CONSTANTS, rng.randint(1, len(CONSTANTS)))
        self.waiting = self.constants + [name for name in self.symbols if name in SYMBOLS]
        rng.shuffle(self.waiting)
        self.regions = rng.sample(REGION_NAMES, rng.choice([1, 1, 2, 3])) if self.chance(0.4) else []
        self.headers = rng.sample(HEADER_NAMES, rng.choice([0, 1, 2, 3])) if self.chance(0.35) else []
        # Few scripts have several faults of regions, headers and names at once.
        self.is_careless = self.chance(0.02)

    def chance(self, part):
        return self.rng.random() < part

    def slips(self, part):
        return self.chance(0.4 if self.is_careless else part)

    # ---- expressions

    def any_expression(self, depth):
        names = self.symbols + self.constants
        words = Vocabulary(small_number, names or ["none"], names + ["none", ".a"], self.names + self.names + [".none"],
                           self.asked_regions(), [1, 2, 3, 4, 16], 0.98)
        return random_expression(self.rng, depth, words)

    def odd_expression(self):
        """Mostly refused where it is read, and nowhere else; sometimes for several reasons."""
        if self.chance(0.25):
            one, other = self.odd_expression(), self.odd_expression()
            operator = self.rng.choice(["+", "/", "%", "==", "<<", "&&"])
            return self.rng.choice([Binary(operator, one, other), Align(one, other), Call("MIN", one, other),
                                    Binary("/", one, Number(0)), Align(Number(0), one),
                                    Choice(one, other, Here()), Assert(Binary("&", one, Number(0)), "odd")])
        later = [name for name in self.names if name not in self.closed] + [".none"]
        choices = [Binary(self.rng.choice("/%"), Number(1), Number(0)), Align(Number(0), None),
                   Symbol(self.rng.choice(["none", *self.waiting])), Assert(Number(0), "odd"),
                   Of("ADDR", self.rng.choice(later)),
                   Of("SIZEOF", self.rng.choice(later)), Of("LOADADDR", self.rng.choice(later)),
                   Align(Number(8), Number(LARGEST)), Of(self.rng.choice(["ORIGIN", "LENGTH"]), "none")]
        if self.symbols:
            choices.append(Symbol(self.rng.choice(self.symbols)))
        return self.rng.choice(choices)

    def unread(self, expression):
        """The same number, beside a part that is not read."""
        odd = self.odd_expression()
        return self.rng.choice([
            Choice(Number(1), expression, odd), Choice(Binary("&&", Number(0), odd), odd, expression),
            Binary("+", Binary("&&", Number(0), odd), expression),
            Binary("+", expression, Binary("-", Binary("||", Number(2), odd), Number(1))),
            Choice(Of("DEFINED", "none"), odd, expression),
            Choice(Number(1), Choice(Number(0), odd, expression), odd),
        ])

    def asked_regions(self):
        """Those whose names may stand in an expression."""
        return [name for name in self.regions if name.isidentifier() and name.isascii()]

    def segment_start(self, default):
        return Segment(self.rng.choice([*SEGMENTS, "other"]), default)

    def asking(self, default):
        """What asks for memory regions, segments or headers."""
        asked = [Headers(), self.segment_start(default), self.segment_start(default)]
        for name in self.asked_regions():
            asked += [Of("ORIGIN", name), Of("LENGTH", name)]
        one = self.rng.choice(asked)
        return self.rng.choice([one, one, Choice(Number(1), one, self.odd_expression()), Unary("~", one),
                                Call("MAX", Number(1), one), Align(Number(4), one), Binary("-", one, Number(1)),
                                Choice(Number(0), one, default), Assert(Binary("||", Number(1), one), "m")])

    def rising(self):
        """A number that is mostly above all addresses so far, or below all."""
        if self.chance(0.06):
            return self.rng.choice([0, 16, self.high // 2, self.high // 2])
        if self.chance(0.01):
            return LARGEST - self.rng.choice([0, 1, 7, 15, 40, 64])
        self.high += self.rng.choice([0x140, 0x200, 0x1000]) * (-1 if self.falls else 1)
        return self.high

    def known_expression(self):
        """What is known wherever a statement of SECTIONS stands, mostly small."""
        choices = [Of("ALIGNOF", self.rng.choice(self.names)), Of("DEFINED", self.rng.choice(["none", *self.symbols])),
                   Number(small_number(self.rng)), Symbol(self.rng.choice(self.constants)),
                   Headers() if self.chance(0.5) else Segment("other", Number(small_number(self.rng)))]
        if self.closed:
            choices.append(Of("SIZEOF", self.rng.choice(self.closed)))
        return self.rng.choice(choices)

    def address(self):
        """For a placement outside of sections."""
        rng, number = self.rng, Number(self.rising())
        choices = [number, number, Binary("+", number, self.known_expression()), Call("MAX", Here(), number),
                   Align(Number(rng.choice([1, 6, 16, 256])), None), Binary("+", Here(), Number(small_number(rng))),
                   Align(Number(rng.choice([8, 24])), number), Here(), Binary("|", Here(), Number(0x1f)),
                   self.segment_start(number) if self.chance(0.5) else Binary("+", Headers(), number)]
        if self.opened:
            known = Of(rng.choice(["ADDR", "ADDR", "LOADADDR"]), rng.choice(self.opened))
            choices.append(Call("MAX", number, Binary("+", known, Number(0x100))))
        if self.simple:
            choices.append(Call("MAX", number, Binary("+", Symbol(rng.choice(self.simple)), Number(0x40))))
        return rng.choice(choices)

    def placement(self, make):
        """What make makes, or with a part that is not read, or seldom something else."""
        kind = self.rng.random()
        if kind < 0.85:
            return make()
        if kind < 0.97:
            return self.unread(make())
        return self.odd_expression() if kind < 0.98 else self.any_expression(2)

    def marked_expression(self, depth):
        """For a symbol in the contents of a section: of numbers, of addresses of that section and of others."""
        rng = self.rng
        if depth == 0 or self.chance(0.15):
            name = rng.choice(self.names)
            return rng.choice([Here(), Here(), Number(small_number(rng)), Of("ADDR", name), Of("LOADADDR", name),
                               Of("SIZEOF", name), Of("ADDR", self.opened[-1]), Symbol(rng.choice(self.constants)),
                               self.asking(rng.choice([Here(), Number(small_number(rng))])),
                               Symbol(rng.choice(self.inside + self.simple + self.constants))])
        one, other, third = (self.marked_expression(depth - 1) for _ in range(3))
        low = Binary("|", Binary("&", other, Number(15)), Number(1))
        return rng.choice([Choice(one, other, third), Choice(Binary("&", one, Number(1)), other, third),
                           Align(low, one), Unary("!", one),
                           Binary(rng.choice(["&&", "||", "==", "<", ">="]), one, other),
                           Binary("&", Unary(rng.choice("~-"), one), Number(255)), Align(low, None),
                           Binary(rng.choice("+|&"), one, other), Binary(rng.choice("/%"), one, low),
                           Call(rng.choice(["MIN", "MAX"]), one, other), Binary(">>", one, Number(2)),
                           Assert(Binary("|", one, Number(1)), "m")])

    def cursor_expression(self):
        """For a placement in the contents of a section."""
        rng, here = self.rng, self.opened[-1]
        offset = Number(rng.choice([0, 16, 64, 96, 128, 128]))
        own = [name for name in self.inside if name in self.simple]
        marks = [Symbol(name) for name in rng.sample(own, min(2, len(own)))]
        return rng.choice([
            *[Call("MAX", mark, Here()) for mark in marks], *[Binary("+", mark, Number(128)) for mark in marks],
            Binary("+", Here(), Number(small_number(rng))), Align(Number(rng.choice([1, 4, 6, 16])), None), offset,
            Here(), Call("MAX", Here(), offset), Binary("+", Of("ADDR", here), offset), Align(Number(8), Here()),
            Binary("+", Here(), self.known_expression()), Choice(Of("ADDR", here), Here(), offset),
            Segment("other", Here()), Call("MAX", Here(), Headers()),
            Choice(Binary("<", Here(), Number(self.high)), Here(), offset), Binary("+", Here(), Of("ALIGNOF", here)),
            Number(0x3000) if self.chance(0.2) else Here(),
        ])

    def simple_expression(self):
        rng = self.rng
        return rng.choice([Here(), Binary("+", Here(), Number(small_number(rng))), Number(small_number(rng)),
                           Align(Number(8), None)])

    def symbol_expression(self):
        """Of a symbol that no placement asks for."""
        rng = self.rng
        kind = rng.random()
        if self.is_inside and kind < 0.08:
            return self.asking(rng.choice([Here(), Number(small_number(rng)), Of("ADDR", self.opened[-1])]))
        if self.is_inside and kind < 0.5:
            return self.marked_expression(rng.choice([1, 2, 2, 3]))
        if kind < 0.2:
            return self.simple_expression()
        if kind < 0.6:
            name = rng.choice(self.names)
            return rng.choice([Of("ADDR", name), Of("SIZEOF", name), Of("LOADADDR", name), self.known_expression(),
                               Binary("+", Of("ADDR", name), Of("SIZEOF", name)),
                               Binary("-", Of("LOADADDR", name), Of("ADDR", name))])
        if kind < 0.84 and self.symbols:
            # Rarely a symbol that may ask for this one.
            names = self.defined if self.defined and self.chance(0.97) else self.symbols
            other = Symbol(rng.choice(self.inside if self.inside and self.chance(0.7) else names))
            return rng.choice([other, Binary("+", other, Number(4)), Binary("-", other, Here()),
                               Binary("<", other, Here()), Choice(other, other, Here()),
                               Binary("-", Call("MAX", other, Here()), other)])
        if kind < 0.9:
            return self.unread(Here())
        if kind < 0.95:
            return self.asking(rng.choice([Here(), Binary("+", Here(), Number(16)), Number(0x40)]))
        return self.any_expression(rng.choice([1, 2, 2, 3])) if kind < 0.99 else self.odd_expression()

    def condition(self):
        rng = self.rng
        name = rng.choice(self.names)
        kind = rng.random()
        if kind < 0.9:
            return rng.choice([Number(1), Binary("<=", Of("ADDR", name), Number(1 << 40)), Binary("==", Here(), Here()),
                               Binary("|", self.any_expression(2), Number(1)), Unary("!", Of("DEFINED", "none")),
                               Binary("<=", Of("SIZEOF", name), Number(4096)), Unary("~", Number(0))])
        return self.unread(Number(1)) if kind < 0.97 else self.any_expression(2)

    # ---- statements

    def change(self):
        return self.rng.choice(CHANGES) if self.chance(0.3) else "="

    def define(self, name):
        """A definition of a name that waits for one."""
        if name in self.constants:
            value = Binary("+", Number(self.rng.choice([16, 256])), Number(self.rng.choice([0, 1, 64])))
        elif self.chance(0.4):
            value = self.simple_expression()
            self.simple.append(name)
        else:
            value = self.symbol_expression()
        self.defined.append(name)
        self.inside.append(name)
        if self.chance(0.3):
            return Provide(name, value, self.chance(0.5))
        operator = self.rng.choice(CHANGES) if self.chance(0.01) else ""
        return Assignment(name, operator, value)

    def again(self):
        """A definition that does not count, or mostly not; or one of a name that is listed nowhere."""
        name = self.rng.choice(["", *self.symbols])
        if self.chance(0.15) or name == "":
            return Assignment("" if self.chance(0.9) else name, "", self.symbol_expression())
        return Provide(name, self.rng.choice([self.odd_expression(), self.symbol_expression()]), self.chance(0.5))

    def task(self):
        kind = self.rng.random()
        if kind < 0.6 and self.waiting:
            return self.define(self.waiting.pop())
        if kind < 0.8:
            return self.again()
        return Assert(self.condition(), self.rng.choice(["m", "a b", ""]))

    def location(self, make, changes):
        if self.chance(0.3):
            self.high += 0x40
            return Location(self.rng.choice(changes), Number(self.rng.choice([1, 2, 4, 16])))
        return Location("", self.placement(make))

    def pair(self):
        """Two symbols, of which the other one asks for the first in the section of both."""
        names = [name for name in self.waiting if name not in self.constants][:2]
        if len(names) < 2:
            return
        self.waiting = [name for name in self.waiting if name not in names]
        self.defined += names
        first, other = Symbol(names[0]), Number(self.rng.choice([1, 8]))
        far = Binary("+", Number(1 << 20), Of("ADDR", self.rng.choice(self.names)))
        values = [Of("ADDR", self.rng.choice(self.opened)), Symbol(self.rng.choice(self.constants)), far, far, far,
                  Binary("+", Here(), other), Here(), Binary("-", Of("ADDR", self.opened[-1]), other)]
        yield Assignment(names[0], "", self.rng.choice(values))
        values = [first, Binary("+", first, other), Binary("-", first, Here()), Binary("<", Here(), first),
                  Unary("!", Call("MIN", first, other))]
        yield Assignment(names[1], "", self.rng.choice(values))

    def contents(self):
        for _ in range(self.rng.randint(0, 4)):
            kind = self.rng.random()
            if kind < 0.52:
                yield random_matcher(self.rng)
            elif kind < 0.72:
                changes = ["+", "+", "+", "|", "*", "<<"] if self.chance(0.3) else ["+"]
                yield self.location(self.cursor_expression, changes)
            elif kind < 0.8:
                yield from self.pair()
            else:
                yield Constructors() if kind < 0.83 else self.task()

    def load(self):
        if self.chance(0.5):
            sum_here = Binary("+", Here(), self.known_expression())
            return self.rng.choice([Here(), Of("ADDR", self.opened[-1]), sum_here, Align(Number(64), None)])
        return self.address()

    def clause(self, usual, odd, care=0.97):
        """An expression that is a constant mostly."""
        kind = self.rng.random()
        if kind < care:
            return self.rng.choice([usual, usual, Binary("*", usual, Number(1)), Binary("<<", usual, Number(0)),
                                    Choice(Number(1), usual, self.odd_expression()),
                                    Binary("+", usual, Binary("&&", Number(0), self.odd_expression())),
                                    Binary("|", usual, Call("MIN", Number(0), Number(3)))])
        asking = self.asking(usual)
        wrong = [odd, Here(), Symbol("base"), Binary("/", Number(4), Number(0)), Binary("%", usual, Number(0)),
                 asking, Choice(Number(1), usual, asking)]
        return self.rng.choice(wrong)

    def region_start(self, region):
        """Mostly an address in the region."""
        if region not in self.asked_regions() or self.chance(0.05):
            return self.address()
        self.high_in_region += self.rng.choice([0x140, 0x200, 0x1000])
        return Binary("+", Of("ORIGIN", region), Number(self.high_in_region))

    def start(self, region):
        if region is None:
            return self.placement(self.address) if self.chance(0.25) else None
        return self.placement(lambda: self.region_start(region)) if self.chance(0.1) else None

    def named_region(self):
        if self.slips(0.004):
            return "none"
        return self.rng.choice(self.regions) if self.regions and self.chance(0.75) else None

    def named_headers(self):
        if self.slips(0.003):
            return ["unknown"]
        if not self.headers or self.chance(0.5):
            return ["NONE"] if self.chance(0.04) else []
        return [self.rng.choice([*self.headers, "NONE"]) for _ in range(self.rng.choice([1, 1, 1, 2, 3]))]

    def section(self, name):
        rng, found = self.rng, Section(name, [], region=self.named_region(), headers=self.named_headers())
        if self.chance(0.25):
            found.attribute = rng.choice(["NOLOAD", "READONLY", *FLOATING])
        found.start = self.start(found.region)
        self.opened.append(name or self.names[0])
        if self.chance(0.25):
            found.load = self.placement(self.load)
        if self.chance(0.25):
            found.alignment = self.clause(Number(1 << rng.randint(0, 6)), Number(rng.choice([0, 3, 12, 1 << 22])))
        if self.chance(0.2):
            found.fill = self.clause(Number(rng.choice([0, 0x90, 0x90909090, (1 << 32) - 1])), Number(1 << 32))
        self.inside, self.is_inside = [], True
        found.contents = list(self.contents())
        self.inside, self.is_inside = [], False
        self.closed.append(name or self.names[0])
        return found

    def discarding(self):
        contents = [random_matcher(self.rng) for _ in range(self.rng.randint(0, 2))]
        found = Section("/DISCARD/", contents)
        if self.chance(0.01):
            found.attribute = "NOLOAD"
        if self.chance(0.01):
            found.start = Number(0)
        if self.chance(0.01):
            found.region = "R"
        if self.chance(0.01):
            found.headers = ["text"]
        if self.chance(0.01):
            refused = [Constructors(), Location("", Here()), Assignment("x", "", Here())]
            contents.append(self.rng.choice(refused))
        return found

    def between(self):
        """What stands in SECTIONS before its next section."""
        while self.chance(0.4):
            kind = self.rng.random()
            if kind < 0.45:
                yield self.location(self.address, CHANGES[:1] * 8 + ["|", "-", "*"])
            elif kind < 0.87:
                yield self.task()
            else:
                yield self.discarding()

    def command(self):
        """An outermost one."""
        kind = self.rng.random()
        if kind < 0.6:
            return self.task()
        if kind < 0.8:
            return Location(self.rng.choice(["", "+"]), self.symbol_expression())
        return Command(self.rng.choice(IDLE)) if kind < 0.93 else self.format()

    def format(self):
        """Mostly that of the machine."""
        right, any_name = FORMATS[self.options.machine], self.rng.choice(FORMAT_NAMES)
        names = [self.rng.choice(FORMAT_NAMES) for _ in range(3)]
        names[{"big": 1, "little": 2}.get(self.options.endian, 0)] = any_name if self.chance(0.2) else right
        return Format(names if self.chance(0.6) else [any_name if self.chance(0.2) else right])

    # ---- memory regions and program headers

    def region(self, name, index):
        rng = self.rng
        origin = Number(0x100000 * (index + 1)) if self.chance(0.95) else Number(rng.choice([0, 4, LARGEST, 0x100010]))
        length = Number(0x80000) if self.chance(0.85) else Number(rng.choice([0, 1, 16, 0x100, LARGEST >> 1]))
        if self.slips(0.01):
            length = Number(min(LARGEST, LARGEST - origin.value + rng.choice([0, 1])))
        care = 0.7 if self.is_careless else 0.995
        return Region(name, self.clause(origin, Symbol("base"), care), self.clause(length, Here(), care))

    def memory(self):
        names = list(self.regions)
        if names and self.slips(0.03):
            names.append(self.rng.choice(names))
        if len(names) > 1 and self.chance(0.03):
            names.pop()
        return Memory([self.region(name, index) for index, name in enumerate(names)])

    def header_number(self, numbers):
        if self.slips(0.01):
            return Number(self.rng.choice([1 << 32, LARGEST]))
        return self.clause(Number(self.rng.choice(numbers)), Here(), 0.99)

    def header(self, name):
        header_type = self.header_number([1, 1, 1, 7, 4, 0, 6, 0x6474e551, 0x60000000, (1 << 32) - 1])
        return Header(name, header_type, self.header_number([0, 4, 5, 6, 7, 0xff]) if self.chance(0.4) else None)

    def program_headers(self):
        names = list(self.headers)
        if names and self.slips(0.03):
            names.append(self.rng.choice(names))
        if self.chance(0.02):
            count = self.rng.choice([256, 256, 257, 300]) - len(names)
            return ProgramHeaders([self.header(name) for name in names] + [Header(f"h{i}", Number(1))
                                                                           for i in range(count)])
        return ProgramHeaders([self.header(name) for name in names])

    def earlier(self, command):
        """One that is not looked at."""
        odd = self.odd_expression()
        name = self.rng.choice(["R", "text"])
        if isinstance(command, Memory):
            return Memory([Region(name, odd, Number(0))] * self.rng.randint(0, 2))
        return ProgramHeaders([Header(name, Number(1), odd)] * self.rng.randint(0, 2))

    def listing(self):
        """The commands of memory regions and program headers, those that count behind others of their kind."""
        found = []
        for names, make in ((self.regions, self.memory), (self.headers, self.program_headers)):
            if names or self.chance(0.05):
                counting = make()
                found.append(([self.earlier(counting)] if self.chance(0.25) else []) + [counting])
        return found

    def list_among(self, commands):
        for listed in self.listing():
            at = sorted(self.rng.randint(0, len(commands)) for _ in listed)
            for shift, (index, command) in enumerate(zip(at, listed)):
                commands.insert(index + shift, command)

    def many_sections(self):
        """About as many segments as there may be."""
        first = 1 << 40
        return Sections([Section(f".{i}", [], start=Number(first + i))
                         for i in range(self.rng.choice([240, 250, 253, 254, 255, 256, 260]))])

    def sections(self, names):
        statements = []
        for name in names:
            statements += self.between()
            statements.append(self.section(name))
        return Sections(statements + list(self.between()))

    def script(self):
        names = list(self.names)
        if self.slips(0.02):
            names.append(self.rng.choice([names[0], ""]))
        parts, commands = self.rng.randint(0, len(names)) if self.chance(0.3) else len(names), []
        for part in (names[:parts], names[parts:]):
            commands += [self.command() for _ in range(self.rng.choice([0, 0, 0, 1, 2]))]
            commands += [self.sections(part)] if part else []
        while self.waiting and self.chance(0.96):
            commands.append(self.define(self.waiting.pop()))
        if self.chance(0.5):
            commands.append(Assert(self.condition(), "the end"))
        if self.chance(0.01):
            commands.append(self.many_sections())
        self.list_among(commands)
        return commands


def random_case(rng):
    rows = [random_row(rng) for _ in range(rng.randint(0, 12))]
    names = rng.sample(TABLE_SYMBOLS, rng.randint(0, len(TABLE_SYMBOLS))) if rows else []
    names += rng.sample(SYMBOLS + names, 1) if names and rng.random() < 0.03 else []
    symbols = [random_symbol(rng, name, rows) for name in names]
    options = random_options(rng)
    return Maker(rng, names, options).script(), rows, symbols, options
