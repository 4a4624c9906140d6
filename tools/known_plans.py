"""Scripts and tables with what is known of their plans: a fault, or lines of the text."""
from comparing import Case, answer_of
from options import Options
from placing import Row, TableSymbol, plan
from trees import tree_of

FIRMWARE = """MEMORY { FLASH : ORIGIN = 0x08000000, LENGTH = 512K
         RAM : ORIGIN = 0x20000000, LENGTH = 128K }
ENTRY(Reset)
SECTIONS {
  .vectors : { KEEP(*(.vectors)) } > FLASH
  .text : { *(.text .text.*) . = ALIGN(4); _etext = .; } > FLASH
  .data : AT(_etext) { _sdata = .; *(.data .data.*) _edata = .; } > RAM
  .bss (NOLOAD) : { *(.bss .bss.* COMMON) } > RAM
}"""


def empty_sections(count):
    """So many sections, each with an address of its own and so in a segment of its own."""
    return f"SECTIONS {{ {' '.join(f'.{number} {number} : {{ }}' for number in range(count))} }}"


# A script, its rows, its symbols with their rows and offsets, and the fault or the lines.
KNOWN = [
    ("", [".b 1 1 A", ".a 1 1 A", ".b 2 1 A"], [],
     ["section .b 0x0000000000000000 0x0000000000000000 0x0000000000000003 1 A - - -",
      "section .a 0x0000000000000003 0x0000000000000003 0x0000000000000001 1 A - - -",
      "input 0 0x0000000000000000 .b f.o .b", "input 2 0x0000000000000001 .b f.o .b"]),
    ("SECTIONS { .o : { *(.text.*) *(.text.x) } .p : { *(.t*) } .q : { *(.text) } }",
     [".text.x 1 1 A", ".text 1 1 A"], [],
     ["input 0 0x0000000000000000 .o f.o .text.x", "input 1 0x0000000000000001 .p f.o .text"]),
    ("SECTIONS { .s 0x1000 : { x = 1 < 2; . = 0x100; } }", [], [],
     ["section .s 0x0000000000001000 0x0000000000001000 0x0000000000000100 1 A - - -", "location 2 0x0000000000001100",
      "symbol x 0x0000000000001001 .s default"]),
    ('SECTIONS {\n.s 0x1000 : {\nASSERT(0, "m") } }', [], [], "36 AssertFailed line=3 message=m"),
    ("SECTIONS { . = base; .a : { *(.a) } } base = 0x4000;", [".a 4 1 A"], [],
     ["section .a 0x0000000000004000 0x0000000000004000 0x0000000000000004 1 A - - -", "location 0 0x0000000000004000",
      "symbol base 0x0000000000004000 - default"]),
    ("SECTIONS { . = base; .a : { *(.a) } } base = . + 0x4000;", [".a 4 1 A"], [],
     ["section .a 0x0000000000004000 0x0000000000004000 0x0000000000000004 1 A - - -"]),
    ("SECTIONS { . = SIZEOF(.b); .b : { *(.b) } }", [".b 4 1 A"], [], "27 NotLaidOut statement=0 name=.b"),
    ("SECTIONS { x = SIZEOF(.b); .b : { *(.b) } }", [".b 4 1 A"], [], ["symbol x 0x0000000000000004 - default"]),
    ("SECTIONS { . = 1 ? 0x10 : SIZEOF(.b); .b : { *(.b) } }", [".b 4 1 A"], [],
     ["section .b 0x0000000000000010 0x0000000000000010 0x0000000000000004 1 A - - -"]),
    ("a = b; b = a;", [], [], "28 SymbolCycle name=a"),
    ("x += 1;", [], [], "28 SymbolCycle name=x"),
    ("x = 1\n-lfoo", [], [], "26 UnknownSymbol name=lfoo"),
    ("SECTIONS { .a 0xFFFFFFFFFFFFFFFE : { *(.a) } }", [".a 1 1 A"], [],
     ["section .a 0xfffffffffffffffe 0xfffffffffffffffe 0x0000000000000001 1 A - - -"]),
    ("SECTIONS { .a 0xFFFFFFFFFFFFFFFE : { *(.a) } }", [".a 2 1 A"], [],
     "34 Overflow left=18446744073709551614 right=2"),
    ("SECTIONS { .t : { *(SORT(.t.*) .u) } }", [".t.b 4 4 A", ".t.a 4 4 A", ".u 0 4 A"], [],
     ["input 0 0x0000000000000004 .t f.o .t.b", "input 1 0x0000000000000000 .t f.o .t.a",
      "input 2 0x0000000000000000 .t f.o .u"]),
    ("SECTIONS { .a : { . = 8; . = 4; } }", [], [], "31 MovesBack statement=2 from=8 to=4"),
    ("SECTIONS { .a 0x100 : { . = 0x10; } .b 0x108 : { . = 0x10; } }", [], [], "32 Overlap first=.a second=.b"),
    ("SECTIONS { .a 0x2000 : { . = 8; } .b 0x1000 : { . = 8; } .c 0 : { . = 0x3000; } }", [], [],
     "32 Overlap first=.b second=.c"),
    ("SECTIONS { .a 0x20 : { } .b (INFO) : { . = 0x40; } .c 0 : { . = 0x40; } }", [], [],
     ["section .c 0x0000000000000000 0x0000000000000000 0x0000000000000040 1 A - - -"]),
    ("SECTIONS { .z 0 : { } .s 0x1000 : { x = ADDR(.z); y = x; } }", [], [], "30 BeforeSection name=x"),
    ("SECTIONS { .a 1 / 0 : AT(2 % 0) { } }", [], [], "22 DivisionByZero statement=0"),
    ("SECTIONS { .a : ALIGN(3) { } =1 / 0 }", [], [], "10 BadAlignment statement=0 value=3"),
    ('SECTIONS { "" : ALIGN(3) { } }', [], [], "9 BadName statement=0"),
    ("SECTIONS { .a : ALIGN(3) { } }", [], [], "10 BadAlignment statement=0 value=3"),
    ("SECTIONS { .a : ALIGN(x) { } }", [], [], "13 NotConstant statement=0"),
    ('SECTIONS { "" : { } }', [], [], "9 BadName statement=0"),
    ("SECTIONS { /DISCARD/ : { x = 1; } }", [], [], "7 BadDiscard statement=0"),
    ("SECTIONS { .a : { } .a : { } }", [], [], "14 DuplicateSection name=.a"),
    ("SECTIONS { .a (INFO) : { *(.a) } .b : { *(.b) } }", [".a 4 1 A", ".b 4 1 A"], [],
     ["section .a 0x0000000000000000 0x0000000000000000 0x0000000000000004 1 - - - -",
      "section .b 0x0000000000000000 0x0000000000000000 0x0000000000000004 1 A - - -"]),
    ("SECTIONS { . = t + 0x10; .a : { *(.a) } }", [".a 4 1 A"], ["t 0 0"], "27 NotLaidOut statement=0 name=t"),
    ("SECTIONS { . = (0 && t) + 0x20; .a : { *(.a) } }", [".a 4 1 A"], ["t 0 0"],
     ["section .a 0x0000000000000020 0x0000000000000020 0x0000000000000004 1 A - - -",
      "symbol t 0x0000000000000020 .a default"]),
    ("SECTIONS { . = DEFINED(t) + 0x10; .a : { *(.a) } }", [".a 4 1 A"], ["t 0 0"], ["location 0 0x0000000000000011"]),
    ("SECTIONS { . = x; .a : { x = 4; } }", [], [], "27 NotLaidOut statement=0 name=.a"),
    ("SECTIONS { . = x; .a 0x1000 : { x = .; } }", [], [], "27 NotLaidOut statement=0 name=."),
    ("SECTIONS { .a 0x10 : AT(. + 0x100) ALIGN(0x20) { *(.a) } =0x90 .b : AT(LOADADDR(.a) + SIZEOF(.a)) { *(.b) } }",
     [".a 4 4 AW", ".b 8 8 AXB"], [],
     ["section .a 0x0000000000000010 0x0000000000000110 0x0000000000000004 32 AW 00000090 - -",
      "section .b 0x0000000000000018 0x0000000000000114 0x0000000000000008 8 AXB - - -"]),
    ("SECTIONS { .a (READONLY) : { *(.a) } .b (NOLOAD) : { *(.b) } .c : { *(.c) } .d : { *(.d) } }",
     [".a 1 1 AW", ".b 1 1 AWX", ".c 2 1 WT", ".d 1 1 T", ".d 1 1 BA"], [],
     ["section .a 0x0000000000000000 0x0000000000000000 0x0000000000000001 1 A - - -",
      "section .b 0x0000000000000001 0x0000000000000001 0x0000000000000001 1 AWXB - - -",
      "section .c 0x0000000000000000 0x0000000000000000 0x0000000000000002 1 WT - - -",
      "section .d 0x0000000000000002 0x0000000000000002 0x0000000000000002 1 AT - - -"]),
    ("SECTIONS { .a 0x100 : { PROVIDE(p = .); x += 4; . += 8; y = ALIGN(16) - p; } } PROVIDE(x = 1);", [], [],
     "28 SymbolCycle name=x"),
    ("SECTIONS { .a 0x100 : { PROVIDE_HIDDEN(p = .); . += 8; CONSTRUCTORS y = . - p; z = y; } }", [], [],
     ["location 2 0x0000000000000108", "symbol p 0x0000000000000100 .a hidden",
      "symbol y 0x0000000000000108 .a default"]),
    ("SECTIONS { .a : AT(LOADADDR(.a)) { } }", [], [], "27 NotLaidOut statement=0 name=.a"),
    ("SECTIONS { .a (DSECT) : { *(.a) } } ORIGIN = 1; x = 1 ? 1 : ORIGIN(r);", [".a 1 1 A"], [],
     ["symbol x 0x0000000000000001 - default"]),
    ("SECTIONS { .a : ALIGN(ORIGIN(r)) { } }", [], [], "13 NotConstant statement=0"),
    ("SECTIONS { .a : ALIGN(1 ? 2 : ORIGIN(r)) { *(**) } =1 << 32 }", [], [],
     "11 BadFill statement=0 value=4294967296"),
    ("SECTIONS { .a SIZEOF_HEADERS : ALIGN(8) { *(**) } }", [], [], "8 BadPattern statement=1 name=**"),
    ("SECTIONS { /DISCARD/ : { *(**) } =0 }", [], [], "7 BadDiscard statement=0"),
    ("SECTIONS { . = 0x1000; .a : { *(.a) } x = .; }", [".a 4 4 A"], [],
     ["section .a 0x0000000000001000 0x0000000000001000 0x0000000000000004 4 A - - -",
      "input 0 0x0000000000001000 .a f.o .a", "location 0 0x0000000000001000", "segment 0x00000001 4 - .a",
      "symbol x 0x0000000000001004 - default"]),
    (FIRMWARE, [".vectors 0x40 4 A", ".text 0x101 4 AX", ".text.f 6 2 AX", ".data 8 4 AW", ".bss 0x20 8 AWB"], [],
     ["section .vectors 0x0000000008000000 0x0000000008000000 0x0000000000000040 4 A - FLASH -",
      "section .text 0x0000000008000040 0x0000000008000040 0x000000000000010c 4 AX - FLASH -",
      "section .data 0x0000000020000000 0x000000000800014c 0x0000000000000008 4 AW - RAM -",
      "section .bss 0x0000000020000008 0x0000000020000008 0x0000000000000020 8 AWB - RAM -",
      "input 2 0x0000000008000144 .text f.o .text.f", "segment 0x00000001 4 - .vectors",
      "segment 0x00000001 5 - .text", "segment 0x00000001 6 - .data,.bss",
      "symbol _etext 0x000000000800014c .text default", "symbol _edata 0x0000000020000008 .data default"]),
    (f"x = {256 * '('}1{256 * ')'};", [], [], ["symbol x 0x0000000000000001 - default"]),
    (empty_sections(255), [], [], ["segment 0x00000001 4 - .0", "segment 0x00000001 4 - .254"]),
    (empty_sections(256), [], [], "21 TooManySegments segments=256"),
    ("MEMORY { R : ORIGIN = 0, LENGTH = 16 } SECTIONS { .a : { . = 17; } > R }", [], [],
     "33 RegionFull region=R section=.a"),
    ("MEMORY { R : ORIGIN = 0, LENGTH = 16 } SECTIONS { .a : { . = 16; } > R .b : { } > R }", [], [],
     ["section .b 0x0000000000000010 0x0000000000000010 0x0000000000000000 1 A - R -", "segment 0x00000001 4 - .a,.b"]),
    ("MEMORY { R : ORIGIN = 4, LENGTH = 16 } SECTIONS { .a 0 : { } > R }", [], [], "33 RegionFull region=R section=.a"),
    ("SECTIONS { .a : { } > R }", [], [], "18 UnknownRegion name=R"),
    ("MEMORY { R : ORIGIN = 0, LENGTH = 1 } MEMORY { } SECTIONS { .a : { } > R }", [], [], "18 UnknownRegion name=R"),
    ("MEMORY { R : o = 0, l = 1 R : o = 1, l = 1 }", [], [], "16 DuplicateName name=R"),
    ("MEMORY { R : o = x, l = 1 / 0 }", [], [], "13 NotConstant statement=0"),
    ("MEMORY { R : o = 0xFFFFFFFFFFFFFFFF, l = 1 R : o = 0, l = 1 }", [], [],
     "34 Overflow left=18446744073709551615 right=1"),
    ("MEMORY { R : o = 1 / 0, l = 1 } MEMORY { R : o = 0, l = 1 } x = LENGTH(R);", [], [],
     ["symbol x 0x0000000000000001 - default"]),
    ("OUTPUT_FORMAT(elf32-littlearm)", [], [], "17 OutputFormat name=elf32-littlearm"),
    ("SECTIONS { .a : { } :h }", [], [], "19 UnknownPhdr name=h"),
    ("PHDRS { a 1; b 1 << 32 FLAGS(x); }", [], [], "12 BadHeader index=1 value=4294967296"),
    ("PHDRS { a 1; a 1; } SECTIONS { .a : { } > R }", [], [], "16 DuplicateName name=a"),
    ("PHDRS { a 1; a 1; } MEMORY { R : o = 0, l = 1 R : o = 1, l = 1 }", [], [], "16 DuplicateName name=R"),
    ("PHDRS { a x; } MEMORY { R : o = 1 / 0, l = 1 }", [], [], "22 DivisionByZero statement=1"),
    ("PHDRS { h 1; } SECTIONS { .a : { } :h } SECTIONS { .b : { } }", [], [], ["segment 0x00000001 4 h .a"]),
    ("PHDRS { headers PT_PHDR PHDRS; text PT_LOAD FILEHDR PHDRS FLAGS(5); data 1; none 4; } SECTIONS { "
     ".a : { *(.a) } :text .b : { *(.b) } /DISCARD/ : { } .c : { *(.c) } :data :none .d : { *(.d) } :NONE }",
     [".a 4 4 AX", ".b 4 4 A", ".c 4 4 AW", ".d 4 4 A", ".e 4 4 AW"], [],
     ["segment 0x00000006 4 headers -", "segment 0x00000001 5 text .a,.b", "segment 0x00000001 6 data .c",
      "segment 0x00000004 6 none .c", "section .b 0x0000000000000004 0x0000000000000004 0x0000000000000004 4 A - - text",
      "section .c 0x0000000000000008 0x0000000000000008 0x0000000000000004 4 AW - - data,none",
      "section .d 0x000000000000000c 0x000000000000000c 0x0000000000000004 4 A - - NONE",
      "section .e 0x0000000000000010 0x0000000000000010 0x0000000000000004 4 AW - - -"]),
]


def row_of(text):
    name, size, alignment, flags = text.split()
    return Row("f.o", name, int(size, 0), int(alignment), flags)


def symbol_of(text):
    name, row, offset = text.split()
    return TableSymbol(name, int(row), int(offset))


def known_cases():
    """The cases, each with its answer as it is worked out."""
    for script, rows, symbols, _ in KNOWN:
        table = "".join(f"section,f.o,{row.replace(' ', ',')}\n" for row in rows)
        table += "".join(f"symbol,{symbol.replace(' ', ',')},,\n" for symbol in symbols)
        inputs = tree_of(script), [row_of(row) for row in rows], [symbol_of(symbol) for symbol in symbols], Options()
        yield Case(script, table, answer_of(plan, *inputs))


def is_known(case, known):
    _, text, fault = case.answer
    return fault == f"fault {known}\n" if isinstance(known, str) else set(known) <= set(text.splitlines())


def differing_plans():
    """How many answers are not what is known of them. Each is printed."""
    wrong = [case for case, (*_, known) in zip(known_cases(), KNOWN) if not is_known(case, known)]
    for case in wrong:
        print(f"{case.script}\n{case.table}{case.answer[1]}{case.answer[2]}")
    return len(wrong)
