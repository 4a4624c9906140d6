"""The segments of the output, found by opening and closing them section by section, and their lines by docs/TEXTS.md."""
from dataclasses import dataclass, field

from comparing import Fault, name_text

MOST = 256
# The type and the flags of what is read only, executable, writable and thread-local.
KINDS = [(1, 4), (1, 5), (1, 6), (7, 4)]
READ_ONLY, EXECUTABLE, WRITABLE, THREAD_LOCAL = range(len(KINDS))
STACK = 0x6474e551, 6


@dataclass
class PlacedSegment:
    type: int
    flags: int
    # That of its program header, or None.
    name: object = None
    # The numbers of its sections.
    sections: list = field(default_factory=list)
    # Of all its sections.
    region: object = None


def kinds_of(facts):
    """The kinds that include a section. None includes one that floats."""
    if facts.floats():
        return []
    flags = facts.flags()
    loaded = EXECUTABLE if "X" in flags else WRITABLE if "W" in flags else READ_ONLY
    return [loaded, THREAD_LOCAL] if "T" in flags else [loaded]


class Opening:
    """Opens and closes segments, section by section."""

    def __init__(self):
        self.found = []
        # Those that may go on, by their kinds.
        self.open = {}

    def take(self, number, facts):
        if facts.clause("start") is not None:
            self.open.clear()
        included, region = kinds_of(facts), facts.clause("region")
        for kind in range(len(KINDS)):
            if kind in self.open and (kind not in included or self.open[kind].region != region):
                del self.open[kind]
            if kind in included:
                if kind not in self.open:
                    self.open[kind] = PlacedSegment(*KINDS[kind], region=region)
                    self.found.append(self.open[kind])
                self.open[kind].sections.append(number)


def of_sections(sections):
    """Without program headers."""
    opening = Opening()
    for number, facts in enumerate(sections):
        opening.take(number, facts)
    return [*opening.found, PlacedSegment(*STACK)]


def of_header(sections, name, header_type, flags):
    held = [number for number, facts in enumerate(sections) if name in facts.headers]
    if flags is None:
        letters = "".join(sections[number].flags() for number in held)
        flags = 4 + 2 * ("W" in letters) + ("X" in letters)
    return PlacedSegment(header_type, flags, name, held)


def segments_of(sections, headers, is_partial):
    """Of sections with their facts, and of headers with their names, types and flags."""
    if headers:
        found = [of_header(sections, *header) for header in headers]
    else:
        found = [] if is_partial else of_sections(sections)
    if len(found) > MOST:
        raise Fault(f"fault 21 TooManySegments segments={MOST}")
    return found


def segment_lines(segments, sections):
    """The line of each header, and of each other segment that holds a section: so STACK has none."""
    for segment in segments:
        if segment.name is not None or segment.sections:
            names = ",".join(name_text(sections[number].name) for number in segment.sections) or "-"
            yield f"segment 0x{segment.type:08x} {segment.flags} {name_text(segment.name or '')} {names}"
