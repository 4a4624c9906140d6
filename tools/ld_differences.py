"""The points in which a plan and what GNU ld links differ by design, each with a script that shows it."""

# The sources of the objects, in their order on the command line.
OBJECTS = {
    "one.o": """
	.section .a, "aw"
	.globl a
a:	.zero 8
	.section .b, "aw"
	.balign 4
	.globl b
b:	.zero 4
	.section .c.1, "aw"
	.globl c
c:	.zero 1
	.section .c.2, "aw"
	.balign 4
	.zero 4
	.section .n, ""
	.zero 4
	.section .t, "awT", @progbits
	.balign 4
	.zero 4
	.section .u, "awT", @nobits
	.balign 16
	.zero 32
	.section .v, "aw"
	.balign 8
	.zero 5
""",
    "two.o": """
	.section .c.3, "aw"
	.globl d
d:	.zero 1
""",
}

# Behind the statements of each script.
REST = "/DISCARD/ : { *(*) }"
END = '\t.section .note.GNU-stack, "", @progbits\n'

REFUSED = "refused"

# What is shown; the statements in SECTIONS and the commands behind it; and what is looked at, with what is planned and
# what is linked: an address, or None where there is no such section or symbol. Where a whole script is refused, that is
# the answer to all of it.
DIFFERENCES = [
    ("rows stand by falling alignment, in ld in the order of the object files", ".c 0x1000 : { *(.c.1 .c.2) }", "",
     [("symbol c", 0x1004, 0x1000)]),
    ("a row takes a multiple of its alignment, in ld its size", ".v 0x1000 : { *(.v) } .a : { *(.a) }", "",
     [("start .a", 0x1008, 0x1005)]),
    ("in a section ALIGN counts from its start, in ld from 0", ".a 0x1004 : { *(.a) . = ALIGN(16); x = .; }", "",
     [("symbol x", 0x1014, 0x1010)]),
    ("without AT a section is loaded where it starts, in ld behind the section before it",
     ".a 0x1000 : AT(0x8000) { *(.a) } .b : { *(.b) }", "", [("load .b", 0x1008, 0x8008)]),
    ("in AT `.` is the start of the section, in ld 0", ".a 0x1000 : AT(. + 0x100) { *(.a) }", "",
     [("load .a", 0x1100, 0x100)]),
    ("an empty section moves the counter, ld drops it", ". = 0x1000; .e 0x5000 : { } .a : { *(.a) }", "",
     [("start .e", 0x5000, None), ("start .a", 0x5000, 0x1000)]),
    ("a start address counts as it is, ld rounds it up to the ALIGN clause", ".a 0x1001 : ALIGN(16) { *(.a) }", "",
     [("start .a", 0x1001, 0x1010)]),
    ("a floating section starts at 0 and moves no counter, in ld INFO and the like only leave out the contents",
     ".a 0x1000 : { *(.a) } .i (INFO) : { *(.b) } .v : { *(.v) }", "",
     [("start .i", 0, 0x1008), ("start .v", 0x1008, 0x1010)]),
    ("a floating section may have AT, which ld does not look at there", ".i 0x3000 (INFO) : AT(0x4000) { *(.b) }", "",
     [("load .i", 0x4000, 0x3000)]),
    ("a section whose rows are not in memory starts at 0, in ld at the counter where the script places it",
     ".a 0x1000 : { *(.a) } .n : { *(.n) }", "", [("start .n", 0, 0x1008)]),
    ("thread-local sections are placed like others; in ld the first has the alignment of all, and .tbss takes no room",
     ".a 0x1000 : { *(.a) } .t : { *(.t) } .u : { *(.u) } .v : { *(.v) }", "",
     [("start .t", 0x1008, 0x1010), ("start .u", 0x1010, 0x1020), ("start .v", 0x1030, 0x1020)]),
    ("sections may share load addresses, which ld refuses",
     ".a 0x1000 : AT(0x100) { *(.a) } .b 0x2000 : AT(0x104) { *(.b) }", "", [("load .b", 0x104, REFUSED)]),
    ("a placement asks for what is placed before it, in ld also for later sizes",
     ". = SIZEOF(.b) + 0x1000; .a : { *(.a) } .b : { *(.b) }", "", [("start .a", "27 NotLaidOut", 0x1004)]),
    ("outside of SECTIONS `.` is 0, in ld the counter where the sections end", ".a 0x1000 : { *(.a) }", "x = .;",
     [("symbol x", 0, 0x1008)]),
    ("a symbol that is defined anywhere is DEFINED, in ld one that is defined before",
     "x = DEFINED(late);", "late = 1;", [("symbol x", 1, 0)]),
    ("PROVIDE defines what nothing else does, in ld what is used besides", "PROVIDE(x = 4);", "",
     [("symbol x", 4, None)]),
    ("a symbol is assigned once", "x = 1; x = 2;", "", [("symbol x", "15 DuplicateSymbol", 2)]),
    ("`+=` asks for the symbol that it defines", "x = 1; x += 2;", "", [("symbol x", "15 DuplicateSymbol", 3)]),
    ("a symbol with a number is an address when it is read in a section, in ld a number, which counts from the start",
     "flag = 4; .a 0x1000 : { *(.a) x = flag; }", "", [("symbol x", 4, 0x1004)]),
    ("in a section an address of it counts from its start, and one of another section or of none from 0; ld makes both "
     "count from 0, and the result a number",
     ".b 0x1000 : { *(.b) } .a 0x2000 : { *(.a) x = a + b; }", "", [("symbol x", 0x3000, 0x5000)]),
    ("a condition that is an address makes the chosen number one",
     "flag = 1; .a 0x1000 : { *(.a) x = flag ? 8 : 16; }", "", [("symbol x", 8, 0x1008)]),
    ("a condition is the whole address, in ld it counts from the start of the section",
     ".b 0x1000 : { *(.b) } x = b ? 1 : 2;", "", [("symbol x", 1, 2)]),
    ("comparisons are those of the addresses that the sides stand for",
     "flag = 1; .a 0x1000 : { *(.a) x = flag == 1; }", "", [("symbol x", 0x1000, 0x1001)]),
    ("a sign or an operator outside of a section counts with whole addresses, in ld from the start of the one section",
     ".a 0x1000 : { *(.a) } x = -ADDR(.a); y = ADDR(.a) + ADDR(.a);", "",
     [("symbol x", (1 << 64) - 0x1000, 0x1000), ("symbol y", 0x2000, 0)]),
    ("comparisons bind looser than &, ^ and |", "x = 6 & 2 == 2;", "", [("symbol x", 1, 0)]),
    ("files stand in the order of the table; in ld those come first that a script names without wildcard",
     ".c 0x1000 : { *(.c.1 .c.3) } .b : { two.o(.b) }", "", [("symbol d", 0x1001, 0x1000)]),
]


def script_of(statements, commands):
    return f"SECTIONS {{ {statements} {REST} }}\n{commands}\n"
