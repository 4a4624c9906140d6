"""The plan of a script's tree over a table, by the rules of docs/PLACEMENT.md, GLOBS.md, RULES.md, FAULTS.md and
TEXTS.md as they are written below and in segmenting.py."""
from dataclasses import dataclass, field

from comparing import Fault, address_text, name_text
from expressions import WORD, Assert, Binary, Here, OfRow, OfScript, Point, Scope, Symbol, Values, asks_for_start
from expressions import constant
from options import FORMATS
from segmenting import segment_lines, segments_of

ALIGNMENTS = [1 << exponent for exponent in range(22)]
FLOATING = ["DSECT", "COPY", "INFO", "OVERLAY"]


# ---- tables and trees

@dataclass
class Row:
    file: str
    name: str
    size: int
    alignment: int
    flags: str


@dataclass
class TableSymbol:
    name: str
    row: int
    offset: int


@dataclass
class Pattern:
    # The sort word, or nothing.
    sort: str
    name: str


@dataclass
class Matcher:
    # `*` is every file.
    file: str
    patterns: list
    kept: bool


@dataclass
class Section:
    name: str
    contents: list
    attribute: object = None
    start: object = None
    load: object = None
    alignment: object = None
    fill: object = None
    # The name of its memory region, or None, and the names of its own program headers.
    region: object = None
    headers: list = field(default_factory=list)


@dataclass
class Location:
    # What stands before the `=`.
    operator: str
    expression: object

    def value(self):
        return Binary(self.operator, Here(), self.expression) if self.operator else self.expression


@dataclass
class Assignment:
    name: str
    operator: str
    expression: object

    def value(self):
        return Binary(self.operator, Symbol(self.name), self.expression) if self.operator else self.expression


@dataclass
class Provide:
    name: str
    expression: object
    hidden: bool

    def value(self):
        return self.expression


@dataclass
class Constructors:
    pass


@dataclass
class Sections:
    statements: list


@dataclass
class Region:
    name: str
    origin: object
    length: object


@dataclass
class Memory:
    regions: list


@dataclass
class Header:
    """A program header. FILEHDR and PHDRS in it say nothing here."""
    name: str
    type: object
    # None without FLAGS.
    flags: object = None


@dataclass
class ProgramHeaders:
    headers: list


@dataclass
class Format:
    # One name, or those by default, for big and for little.
    names: list


@dataclass
class Command:
    """A command of which nothing is read here."""
    text: str


# ---- places

@dataclass
class Place:
    word: str
    statement: object = None
    # The section that begins or ends here, or in whose contents the statement stands.
    section: object = None
    chunk: object = None
    # The program headers of the section that begins here.
    headers: object = None
    # How many sections stand before it, where it stands outside of SECTIONS.
    before: object = None


def contents_places(section, number):
    chunks = 0
    for statement in section.contents:
        match statement:
            case Matcher():
                yield Place("collect", statement, number, None if number is None else (number, chunks))
                chunks += 1
            case Location() if number is not None:
                yield Place("location", statement, number)
            case Assignment() | Provide() | Assert() if number is not None:
                yield Place("task", statement, number)
            case _:
                yield Place("idle")


def section_places(section, number, headers):
    """A section of that number and with those headers, or /DISCARD/ where there is no number."""
    if number is None:
        return [Place("discard", section), *contents_places(section, None), Place("idle")]
    collects = any(isinstance(statement, Matcher) for statement in section.contents)
    close = Place("close", section, number, None if collects else (number, 0))
    return [Place("open", section, number, headers=headers), *contents_places(section, number), close]


def orphan_places(number):
    opens = Place("open", None, number, headers=[])
    return [opens, Place("rows", None, number, (number, 0)), Place("close", None, number)]


def outermost_place(command, before):
    match command:
        case Memory():
            return Place("memory", command.regions)
        case ProgramHeaders():
            return Place("headers", command.headers)
        case Format():
            return Place("format", command)
        case Command():
            return Place("idle")
    return Place("task", command, before=before)


def sections_places(command, before):
    """The places of SECTIONS. A section without headers has those of the section before it."""
    places, number, headers = [], before, []
    for statement in command.statements:
        if not isinstance(statement, Section):
            places.append(Place("location" if isinstance(statement, Location) else "task", statement))
        elif statement.name == "/DISCARD/":
            places += section_places(statement, None, [])
        else:
            headers = statement.headers or headers
            places += section_places(statement, number, headers)
            number += 1
    return places


def places_of(script):
    places, before = [], 0
    for command in script:
        if isinstance(command, Sections):
            found = sections_places(command, before)
            before += sum(place.word == "open" for place in found)
            places += found
        else:
            places.append(outermost_place(command, before))
    return places


# ---- patterns: docs/GLOBS.md and docs/RULES.md

def class_of(pattern, start):
    """The test for one character of the class that begins at start, and where it ends."""
    excludes = pattern[start + 1:start + 2] == "!"
    first = start + (2 if excludes else 1)
    end = pattern.find("]", first + 1)
    if first >= len(pattern) or end < 0:
        return None
    ranges, at = [], first
    while at < end:
        last = at + 2 if at + 2 < end and pattern[at + 1] == "-" else at
        ranges.append((pattern[at], pattern[last]))
        at = last + 1
    return (lambda c: excludes != any(low <= c <= high for low, high in ranges)), end + 1


def pieces_of(pattern):
    """The pieces of a pattern, each "*" or a test for one character; None where it has no reading."""
    pieces, at = [], 0
    while at < len(pattern):
        c = pattern[at]
        at += 1
        if c == "*":
            pieces.append("*")
        elif c == "?":
            pieces.append(lambda _: True)
        elif c == "[":
            found = class_of(pattern, at - 1)
            if found is None:
                return None
            pieces.append(found[0])
            at = found[1]
        else:
            if c == "\\":
                if at == len(pattern):
                    return None
                c = pattern[at]
                at += 1
            pieces.append(lambda other, own=c: other == own)
    adjacent = any(one == "*" == other for one, other in zip(pieces, pieces[1:]))
    return pieces if pieces and not adjacent else None


def matches(pieces, text):
    if not pieces:
        return text == ""
    if pieces[0] == "*":
        return any(matches(pieces[1:], text[start:]) for start in range(len(text) + 1))
    return text != "" and pieces[0](text[0]) and matches(pieces[1:], text[1:])


def glob_test(pattern):
    pieces = pieces_of(pattern)
    return None if pieces is None else lambda text: matches(pieces, text)


def unescaped(pattern):
    """The characters of a pattern, each with whether a backslash escapes it; None where a backslash is left over."""
    found, escapes = [], False
    for c in pattern:
        if c == "\\" and not escapes:
            escapes = True
        else:
            found.append((c, escapes))
            escapes = False
    return None if escapes else found


def name_test(pattern):
    characters = unescaped(pattern)
    if characters is None:
        return None
    if any(c in "*?[" and not escaped for c, escaped in characters):
        return glob_test(pattern)
    exact = "".join(c for c, _ in characters)
    return lambda text: text == exact


def file_test(pattern):
    return (lambda _: True) if pattern == "*" else glob_test(pattern)


# ---- checks: docs/FAULTS.md

def check_table(rows, symbols):
    for index, row in enumerate(rows):
        if row.alignment not in ALIGNMENTS:
            raise Fault(f"fault 5 BadRow row={index}")
    for index, symbol in enumerate(symbols):
        if symbol.row >= len(rows) or symbol.offset > rows[symbol.row].size:
            raise Fault(f"fault 6 BadSymbolRow symbol={index}")


def check_patterns(place, matcher):
    for pattern in matcher.patterns:
        for test, name in ((file_test, matcher.file), (name_test, pattern.name)):
            if test(name) is None:
                raise Fault(f"fault 8 BadPattern statement={place} name={name_text(name)}")


def check_discard(place, section):
    clauses = [section.attribute, section.start, section.load, section.alignment, section.fill, section.region]
    is_plain = clauses == [None] * 6 and not section.headers
    if not is_plain or not all(isinstance(statement, Matcher) for statement in section.contents):
        raise Fault(f"fault 7 BadDiscard statement={place}")


def check_section(place, section):
    if section.name == "":
        raise Fault(f"fault 9 BadName statement={place}")
    if section.alignment is not None and (number := constant(section.alignment, place)) not in ALIGNMENTS:
        raise Fault(f"fault 10 BadAlignment statement={place} value={number}")
    if section.fill is not None and (number := constant(section.fill, place)) >= 1 << 32:
        raise Fault(f"fault 11 BadFill statement={place} value={number}")


def check_format(names, options):
    chosen = {"big": names[1], "little": names[2]}.get(options.endian, names[0]) if len(names) == 3 else names[0]
    if chosen != FORMATS[options.machine]:
        raise Fault(f"fault 17 OutputFormat name={name_text(chosen)}")


def check_place(number, place, options):
    match place.word:
        case "open":
            check_section(number, place.statement)
        case "discard":
            check_discard(number, place.statement)
        case "collect":
            check_patterns(number, place.statement)
        case "format":
            check_format(place.statement.names, options)


def last_list(places, word):
    """The place of the last command of this kind, and what it lists."""
    found = [(number, place.statement) for number, place in enumerate(places) if place.word == word]
    return found[-1] if found else (None, [])


def numbered_regions(places):
    """The name, origin and length of each region of the last MEMORY."""
    number, regions = last_list(places, "memory")
    found = []
    for region in regions:
        origin, length = constant(region.origin, number), constant(region.length, number)
        if origin + length >= WORD:
            raise Fault(f"fault 34 Overflow left={origin} right={length}")
        found.append((region.name, origin, length))
    return found


def header_number(expression, number, index):
    value = constant(expression, number)
    if value >= 1 << 32:
        raise Fault(f"fault 12 BadHeader index={index} value={value}")
    return value


def numbered_headers(places):
    """The name, type and flags of each header of the last PHDRS, None for flags that are not given."""
    number, headers = last_list(places, "headers")
    found = []
    for index, header in enumerate(headers):
        header_type = header_number(header.type, number, index)
        flags = None if header.flags is None else header_number(header.flags, number, index)
        found.append((header.name, header_type, flags))
    return found


def check_references(sections, region_names, header_names):
    """The section's own headers are looked at alone: it has those of an earlier one besides."""
    for section in sections:
        if section.region not in (None, *region_names):
            raise Fault(f"fault 18 UnknownRegion name={name_text(section.region)}")
        for name in section.headers:
            if name not in ("NONE", *header_names):
                raise Fault(f"fault 19 UnknownPhdr name={name_text(name)}")


def refuse_repeated(names, fault):
    for index, name in enumerate(names):
        if name in names[:index]:
            raise Fault(f"fault {fault} name={name_text(name)}")


# ---- rules, fates and sections: docs/PLACEMENT.md

@dataclass
class Rule:
    takes_file: object
    takes_name: object
    chunk: object
    is_sorted: bool


@dataclass
class Fate:
    chunk: tuple
    is_sorted: bool


@dataclass
class Facts:
    """What is said of a section before any address is known."""
    name: str
    # Of the script, or None.
    section: object
    # Names of program headers.
    headers: list = field(default_factory=list)
    rows: list = field(default_factory=list)

    def attribute(self):
        return self.section and self.section.attribute

    def alignment(self):
        clause = 1 if self.section is None or self.section.alignment is None else constant(self.section.alignment, 0)
        return max([clause] + [row.alignment for row in self.rows])

    def floats(self):
        return self.attribute() in FLOATING or bool(self.rows) and not any("A" in row.flags for row in self.rows)

    def flags(self):
        kept = "" if self.floats() else "A"
        kept += "W" if self.attribute() != "READONLY" and any("W" in row.flags for row in self.rows) else ""
        kept += "X" if any("X" in row.flags for row in self.rows) else ""
        bare = bool(self.rows) and all("B" in row.flags for row in self.rows)
        kept += "B" if self.attribute() == "NOLOAD" or bare else ""
        return kept + ("T" if any("T" in row.flags for row in self.rows) else "")

    def clause(self, name):
        return getattr(self.section, name) if self.section else None


def rules_of(places):
    for place in places:
        if place.word == "collect":
            for pattern in place.statement.patterns:
                is_sorted = pattern.sort in ("SORT", "SORT_BY_NAME")
                yield Rule(file_test(place.statement.file), name_test(pattern.name), place.chunk, is_sorted)


def fate_of(rules, sections, row):
    """Where a row goes, or None where it is discarded. An orphan gets its section."""
    if "E" in row.flags or row.name == "":
        return None
    for rule in rules:
        if rule.takes_name(row.name) and rule.takes_file(row.file):
            return None if rule.chunk is None else Fate(rule.chunk, rule.is_sorted)
    names = [facts.name for facts in sections]
    if row.name not in names:
        sections.append(Facts(row.name, None))
        return Fate((len(names), 0), False)
    return Fate((names.index(row.name), 0), False)


# ---- layout: docs/PLACEMENT.md

def up(address, alignment):
    rounded = -(-address // alignment) * alignment
    if rounded >= WORD:
        raise Fault(f"fault 35 AlignOverflow value={address} align={alignment}")
    return rounded


class Layout:
    def __init__(self, sections, rows, fates, scope):
        self.sections, self.rows, self.fates, self.scope = sections, rows, fates, scope
        self.counter = self.cursor = 0
        self.region_counters = {name: origin for name, (origin, _) in scope.regions.items()}
        self.known, self.locations = {}, []

    def step(self, number, place):
        is_inside = place.section is not None and place.word != "open"
        self.known["dot", number] = self.cursor if is_inside else self.counter
        match place.word:
            case "open":
                self.open(number, place.section)
            case "collect" | "rows" if place.chunk is not None:
                self.place_chunk(place.chunk)
            case "location":
                self.locate(number, place)
            case "close":
                self.close(place)

    def full_value(self, number, expression, point):
        return Values(self.scope, self.known, number).full_value(expression, point)

    def open(self, number, section):
        facts = self.sections[section]
        if facts.clause("start") is not None:
            start = self.full_value(number, facts.clause("start"), Point(("dot", number)))
        else:
            counter = self.region_counters.get(facts.clause("region"), self.counter)
            start = 0 if facts.floats() else up(counter, facts.alignment())
        self.known["start", section] = self.known["opened", number] = self.cursor = start
        if facts.clause("load") is not None:
            start = self.full_value(number, facts.clause("load"), Point(("opened", number)))
        self.known["load", section] = start

    def chunk_rows(self, chunk):
        def key(number):
            row, fate = self.rows[number], self.fates[number]
            return -row.alignment, fate.is_sorted, row.name.encode() if fate.is_sorted else b""
        numbers = [number for number, fate in enumerate(self.fates) if fate is not None and fate.chunk == chunk]
        return sorted(numbers, key=key)

    def place_chunk(self, chunk):
        numbers = self.chunk_rows(chunk)
        self.cursor = up(self.cursor, max([1] + [self.rows[number].alignment for number in numbers]))
        for number in numbers:
            self.known["row", number] = self.cursor
            size = up(self.rows[number].size, self.rows[number].alignment)
            if self.cursor + size >= WORD:
                raise Fault(f"fault 34 Overflow left={self.cursor} right={size}")
            self.cursor += size

    def locate(self, number, place):
        value = self.full_value(number, place.statement.value(), Point(("dot", number), place.section))
        if place.section is None:
            self.counter = value
        elif value < self.cursor:
            raise Fault(f"fault 31 MovesBack statement={number} from={self.cursor} to={value}")
        else:
            self.cursor = value
        self.locations.append((number, value))

    def close(self, place):
        if place.chunk is not None:
            self.place_chunk(place.chunk)
        section = place.section
        if not self.sections[section].floats():
            region = self.sections[section].clause("region")
            self.refuse_full_region(section, region)
            self.refuse_overlap(section)
            self.counter = self.cursor
            if region is not None:
                self.region_counters[region] = self.cursor
        self.known["end", section] = self.cursor

    def refuse_full_region(self, section, region):
        if region is None:
            return
        origin, length = self.scope.regions[region]
        if self.known["start", section] < origin or self.cursor > origin + length:
            names = name_text(region), name_text(self.sections[section].name)
            raise Fault(f"fault 33 RegionFull region={names[0]} section={names[1]}")

    def refuse_overlap(self, section):
        def shares(other):
            first, last = self.known["start", other], self.known["end", other]
            return not self.sections[other].floats() and max(start, first) < min(self.cursor, last)
        start = self.known["start", section]
        sharing = [other for other in range(section) if shares(other)]
        if sharing:
            first = min(sharing, key=lambda other: self.known["start", other])
            names = [name_text(self.sections[number].name) for number in (first, section)]
            raise Fault(f"fault 32 Overlap first={names[0]} second={names[1]}")


# ---- symbols: docs/PLACEMENT.md

def point_of(number, place):
    if place.before is None:
        return Point(("dot", number), place.section)
    asks = not isinstance(place.statement, Assert) and asks_for_start(place.statement.value())
    return Point(("end", place.before - 1) if asks and place.before > 0 else None)


def definitions_of(places, symbols, fates):
    """The definition that counts for each name, and the places of those of the script."""
    found, defining = {}, {}
    for symbol in symbols:
        if fates[symbol.row] is not None:
            found.setdefault(symbol.name, OfRow(symbol.row, fates[symbol.row].chunk[0], symbol.offset))
    for kind in (Assignment, Provide):
        for number, place in enumerate(places):
            if place.word == "task" and isinstance(place.statement, kind) and place.statement.name not in found:
                found[place.statement.name] = OfScript(place.statement.value(), point_of(number, place))
                defining[place.statement.name] = number
    return {name: definition for name, definition in found.items() if name}, defining


def script_symbols(places, layout, defining):
    """The names, values, sections and visibilities of the symbols of the script that are listed."""
    for number, place in enumerate(places):
        statement = place.statement
        if place.word != "task" or isinstance(statement, Assert):
            continue
        name = "" if isinstance(statement, Location) else statement.name
        if isinstance(statement, Provide) and (not name or defining.get(name) != number):
            continue
        values, path = Values(layout.scope, layout.known, number), {name} if name else frozenset()
        value = values.full_value(statement.value(), point_of(number, place), path)
        if name:
            yield name, value, place.section, isinstance(statement, Provide) and statement.hidden


def test_asserts(places, layout):
    for number, place in enumerate(places):
        if place.word == "task" and isinstance(place.statement, Assert):
            Values(layout.scope, layout.known, number).value(place.statement, point_of(number, place))


# ---- texts: docs/TEXTS.md

def section_line(layout, number, facts):
    start, load, end = (layout.known[word, number] for word in ("start", "load", "end"))
    addresses = " ".join(address_text(address) for address in (start, load, end - start))
    fill = facts.clause("fill")
    fill_text = "-" if fill is None else f"{constant(fill, 0):08x}"
    region = facts.clause("region")
    said = [facts.alignment(), facts.flags() or "-", fill_text, "-" if region is None else name_text(region),
            ",".join(name_text(name) for name in facts.headers) or "-"]
    return f"section {name_text(facts.name)} {addresses} {' '.join(str(part) for part in said)}"


def row_line(layout, number, row):
    names = f"{name_text(row.file)} {name_text(row.name)}"
    fate = layout.fates[number]
    if fate is None:
        return f"discard {number} {names}"
    section = name_text(layout.sections[fate.chunk[0]].name)
    return f"input {number} {address_text(layout.known['row', number])} {section} {names}"


def symbol_line(layout, name, address, section, hidden):
    section_name = "-" if section is None else name_text(layout.sections[section].name)
    return f"symbol {name_text(name)} {address_text(address)} {section_name} {'hidden' if hidden else 'default'}"


def plan_text(layout, segments, symbols, found):
    lines = [section_line(layout, number, facts) for number, facts in enumerate(layout.sections)]
    lines += [row_line(layout, number, row) for number, row in enumerate(layout.rows)]
    lines += [f"location {place} {address_text(address)}" for place, address in layout.locations]
    lines += segment_lines(segments, layout.sections)
    for symbol in symbols:
        fate = layout.fates[symbol.row]
        if fate is not None:
            address = layout.known["row", symbol.row] + symbol.offset
            lines.append(symbol_line(layout, symbol.name, address, fate.chunk[0], False))
    lines += [symbol_line(layout, *symbol) for symbol in found]
    return "".join(line + "\n" for line in lines)


# ---- plans

def firm_names(places, symbols, fates):
    """The names of which no two may be the same."""
    kept = [symbol.name for symbol in symbols if fates[symbol.row] is not None]
    tasks = [place.statement for place in places if place.word == "task"]
    return [name for name in kept + [task.name for task in tasks if isinstance(task, Assignment)] if name]


def check_script(places, options):
    """The checks of each place, of regions and headers. The regions and headers."""
    for number, place in enumerate(places):
        check_place(number, place, options)
    regions, headers = numbered_regions(places), numbered_headers(places)
    for listed in (regions, headers):
        refuse_repeated([name for name, *_ in listed], "16 DuplicateName")
    sections = [place.statement for place in places if place.word == "open"]
    check_references(sections, [name for name, *_ in regions], [name for name, *_ in headers])
    refuse_repeated([section.name for section in sections], "14 DuplicateSection")
    return regions, headers


def fates_of(places, rows):
    """All sections with their rows, and where each row goes."""
    sections = [Facts(place.statement.name, place.statement, place.headers) for place in places if place.word == "open"]
    rules = list(rules_of(places))
    fates = [fate_of(rules, sections, row) for row in rows]
    for row, fate in zip(rows, fates):
        if fate is not None:
            sections[fate.chunk[0]].rows.append(row)
    return sections, fates


def plan(script, rows, symbols, options):
    """The text of the plan."""
    check_table(rows, symbols)
    places = places_of(script)
    regions, headers = check_script(places, options)
    sections, fates = fates_of(places, rows)
    refuse_repeated(firm_names(places, symbols, fates), "15 DuplicateSymbol")
    segments = segments_of(sections, headers, options.kind == "partial")
    for number in range(sum(place.word == "open" for place in places), len(sections)):
        places += orphan_places(number)
    definitions, defining = definitions_of(places, symbols, fates)
    scope = Scope([facts.name for facts in sections], [facts.alignment() for facts in sections], definitions,
                  {name: (origin, length) for name, origin, length in regions}, options.starts, options.header_size)
    layout = Layout(sections, rows, fates, scope)
    for number, place in enumerate(places):
        layout.step(number, place)
    found = list(script_symbols(places, layout, defining))
    test_asserts(places, layout)
    return plan_text(layout, segments, symbols, found)
