"""The tree of a script's text, as placing.py takes it."""
from expressions import Align, Assert, Binary, Call, Choice, Headers, Here, Number, Of, Segment, Symbol, Unary
from placing import Assignment, Command, Constructors, Format, Header, Location, Matcher, Memory, Pattern
from placing import ProgramHeaders, Provide, Region, Section, Sections
from reading import Script

WORDS_OF_NAMES = ["SIZEOF", "ALIGNOF", "ADDR", "LOADADDR", "ORIGIN", "LENGTH", "DEFINED"]


def name_of(content):
    return content if isinstance(content, str) else content.decode()


class Trees:
    """Turns what was read of one text into its tree."""

    def __init__(self, text):
        self.text = text

    def expression(self, tree):
        match tree:
            case int():
                return Number(tree)
            case ".":
                return Here()
            case "SIZEOF_HEADERS":
                return Headers()
            case bytes():
                return Symbol(tree.decode())
            case ("assert", _, _, _):
                return self.assertion(tree)
            case ("SEGMENT_START", name, default):
                return Segment(name.decode(), self.expression(default))
            case (word, name) if word in WORDS_OF_NAMES:
                return Of(word, name.decode())
        word, *parts = tree[0], *(self.expression(part) for part in tree[1:])
        match word, parts:
            case "ALIGN", [alignment]:
                return Align(alignment, None)
            case "ALIGN", [start, alignment]:
                return Align(alignment, start)
            case "MIN" | "MAX", [left, right]:
                return Call(word, left, right)
            case "?", [condition, one, other]:
                return Choice(condition, one, other)
            case _, [part]:
                return Unary(word, part)
        return Binary(word, *parts)

    def assertion(self, tree):
        _, at, message, condition = tree
        return Assert(self.expression(condition), message.decode(), 1 + self.text[:at].count(b"\n"))

    def statement(self, tree):
        match tree:
            case (".=", value):
                return Location("", self.expression(value))
            case ("=", name, value):
                return Assignment(name.decode(), "", self.expression(value))
            case ("provide" | "provide-hidden" as word, name, value):
                return Provide(name.decode(), self.expression(value), word == "provide-hidden")
            case ("assert", _, _, _):
                return self.assertion(tree)
            case ("match" | "keep" as word, file, patterns):
                return Matcher(name_of(file), [self.pattern(pattern) for pattern in patterns], word == "keep")
            case ("section", name, contents, *items):
                return self.section(name, contents, dict(items))
            case ("constructors",):
                return Constructors()
            case ("sections", *statements):
                return Sections([self.statement(statement) for statement in statements])
            case ("memory", *regions):
                return Memory([self.region(*region) for region in regions])
            case ("phdrs", *headers):
                return ProgramHeaders([self.header(*header) for header in headers])
            case ("format", *names):
                return Format([name.decode() for name in names])
        return Command(str(tree))

    def region(self, _, name, origin, length):
        return Region(name.decode(), self.expression(origin), self.expression(length))

    def header(self, _, name, header_type, *properties):
        flags = dict(properties).get("flags")
        header_flags = None if flags is None else self.expression(flags)
        return Header(name.decode(), self.expression(header_type), header_flags)

    def pattern(self, tree):
        return Pattern("SORT", tree[1].decode()) if isinstance(tree, tuple) else Pattern("", tree.decode())

    def section(self, name, contents, items):
        def clause(word):
            return self.expression(items[word]) if word in items else None
        attribute, region = (items[word].decode() if word in items else None for word in ("attribute", "region"))
        headers = [header.decode() for header in items.get("headers", [])]
        statements = [self.statement(statement) for statement in contents]
        return Section(name.decode(), statements, attribute, clause("start"), clause("at"), clause("align"),
                       clause("fill"), region, headers)


def tree_of(text):
    trees = Trees(text.encode())
    return [trees.statement(command) for command in Script(text.encode()).script()]
