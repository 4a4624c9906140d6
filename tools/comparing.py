"""Runs the program over random cases and prints the first ones in which its answer is not the expected one.

The words of a tool that uses this are: PROGRAM COUNT [FIRST]. Each case is made from its number alone; the first has
the number FIRST, or 0. The status is 1 where two answers differ.
"""
import collections
import itertools
import os
import random
import subprocess
import sys
import tempfile
from dataclasses import dataclass, field

MOST_SHOWN = 3


@dataclass
class Case:
    script: str
    table: str
    # The status, the text on standard output and the line on standard error.
    answer: tuple
    # The options behind the names of the files.
    words: list = field(default_factory=list)


class Fault(Exception):
    """A fault, with its line."""


def answer_of(plan, *inputs):
    """What the program should answer where plan gives the text of the plan, or raises the fault."""
    try:
        return 0, plan(*inputs), ""
    except Fault as fault:
        return 1, "", f"{fault}\n"


def name_text(name):
    if name in ("", "-"):
        return "\\x2d" if name else "-"
    return "".join(chr(b) if 0x21 <= b <= 0x7e and b not in b"\\," else f"\\x{b:02x}" for b in name.encode())


def address_text(address):
    return f"0x{address:016x}"


def answered(program, folder, case):
    paths = [os.path.join(folder, name) for name in ("script", "table")]
    for path, text in zip(paths, (case.script, case.table)):
        with open(path, "w", encoding="utf-8") as file:
            file.write(text)
    ran = subprocess.run([program, "plan", *paths, *case.words], capture_output=True, check=False)
    return ran.returncode, ran.stdout.decode(), ran.stderr.decode()


def compare_all(make, shown=lambda text: text, worked=()):
    """Compares all cases in what is shown of their texts: those worked ones, and those that make makes from a source of
    random numbers."""
    program, count = sys.argv[1], int(sys.argv[2])
    first = int(sys.argv[3]) if len(sys.argv) > 3 else 0
    made = ((number, make(random.Random(number))) for number in range(first, first + count))
    kinds, differing = collections.Counter(), 0
    with tempfile.TemporaryDirectory() as folder:
        for number, case in itertools.chain((("worked", case) for case in worked), made):
            status, out, err = answered(program, folder, case)
            kinds[" ".join(case.answer[2].split()[1:3]) or "plan"] += 1
            if (status, shown(out), err) != case.answer:
                differing += 1
                if differing <= MOST_SHOWN:
                    print(f"case {number}\n{case.script}\n{case.table}{' '.join(case.words)}\nexpected {case.answer}\n"
                          f"answered {(status, shown(out), err)}\n")
    total = sum(kinds.values())
    print(f"{differing} of {total} differ:", ", ".join(f"{kind} {times}" for kind, times in kinds.most_common()))
    sys.exit(1 if differing else 0)
