"""The options behind the names of the files, at random, and their words by docs/TABLE.md."""
from dataclasses import dataclass, field

from expressions import SEGMENTS, WORD

# The format of the output of each machine.
FORMATS = {"x86_64": "elf64-x86-64", "aarch64": "elf64-littleaarch64", "riscv64": "elf64-littleriscv",
           "loongarch64": "elf64-loongarch"}
KINDS = ["static", "static-pie", "dynamic", "dynamic-pie", "shared", "partial"]


@dataclass
class Options:
    kind: str = "static"
    machine: str = "x86_64"
    # big, little or nothing.
    endian: str = ""
    header_size: int = 0
    # The starts that are asked for, by the names of segments.
    starts: dict = field(default_factory=dict)

    def words(self, rng):
        """In any order. What is so by default is mostly not said."""
        words = [f"--kind={self.kind}"] if self.kind != "static" or rng.random() < 0.1 else []
        words += [f"--arch={self.machine}"] if self.machine != "x86_64" or rng.random() < 0.1 else []
        words += [f"--endian={self.endian}"] if self.endian else []
        said = self.header_size != 0 or rng.random() < 0.1
        words += [f"--headers={number_text(rng, self.header_size)}"] if said else []
        words += [f"--start={name}={number_text(rng, start)}" for name, start in self.starts.items()]
        return rng.sample(words, len(words))


def number_text(rng, number):
    return rng.choice([str(number), f"0x{number:x}", f"0x00{number:X}"])


def random_options(rng):
    if rng.random() < 0.4:
        return Options()
    kind = rng.choice(KINDS) if rng.random() < 0.4 else "static"
    sizes = [0, 64, 120, 0x1000] if rng.random() < 0.98 else [WORD - 1, WORD // 2]
    starts = {name: rng.choice([0, 0x400, 0x40000, 0x200000]) for name in SEGMENTS if rng.random() < 0.3}
    return Options(kind, rng.choice(list(FORMATS)), rng.choice(["", "big", "little"]), rng.choice(sizes), starts)
