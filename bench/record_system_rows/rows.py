"""Cases and rows: what stands before a turn, what stands after it, and their text (README.md)."""
from __future__ import annotations

from dataclasses import dataclass, field

import base
from base import FRAME, FRAMES, SLOT

BASE = bytes(base.memory())
# The place of each linear page that the base memory has.
PLACES = {page: frame for page, (frame, _) in base.PAGES.items()} | {(SLOT >> 12) + frame: frame for frame in range(5)}
CONTROL = {"c0": ("cr0", base.CR0), "c2": ("cr2", 0), "c3": ("cr3", base.ROOT), "c4": ("cr4", base.CR4)}


@dataclass
class Case:
    """What stands before a turn; what isn't said is the base's. `control` is by the names of a row's fields, and
    `memory` by place."""
    level: int = 0
    rip: int | None = None
    general: dict = field(default_factory=dict)
    flags: int = base.FLAGS
    stack: int | None = None
    control: dict = field(default_factory=dict)
    memory: dict = field(default_factory=dict)
    undefined: int = 0

    def __post_init__(self):
        self.rip = base.START[self.level] if self.rip is None else self.rip
        self.stack = base.STACK[self.level] if self.stack is None else self.stack

    def put(self, place, data):
        """Lays bytes over memory, also over some that a case laid before."""
        for at, value in enumerate(data, place):
            self.memory[at] = value

    def put_linear(self, address, data):
        """The same at a linear address of the base's pages; what is in none of them is left."""
        for at, value in enumerate(data, address):
            at %= 2 ** 64
            if at >> 12 in PLACES:
                self.memory[PLACES[at >> 12] * FRAME + at % FRAME] = value

    def put_number(self, address, value, width=64):
        self.put_linear(address, (value % 2 ** width).to_bytes(width // 8, "little"))

    def put_entry(self, frame, index, entry):
        self.put(FRAME * frame + 8 * index, entry.to_bytes(8, "little"))

    def put_code(self, code):
        self.put_linear(self.rip, code)

    def register(self, number):
        return self.general.get(number, base.GENERAL[number])

    def read(self, name):
        return self.control.get(name, CONTROL[name][1])

    def overlays(self):
        """The bytes that are laid over the base, in ranges: place and bytes."""
        found = []
        for place, value in sorted(self.memory.items()):
            if BASE[place] == value:
                continue
            if found and place - (found[-1][0] + len(found[-1][1])) < 8:
                last, data = found[-1]
                data += bytes(self.memory.get(at, BASE[at]) for at in range(last + len(data), place))
                data.append(value)
            else:
                found.append((place, bytearray([value])))
        return found

    def before(self):
        """The row's fields that stand before."""
        fields = ["p=3"] if self.level else []
        fields += [f"i={self.rip:x}"] if self.rip != base.START[self.level] else []
        fields += [f"r{number:x}={value:x}" for number, value in sorted(self.general.items())
                   if value != base.GENERAL[number]]
        fields += [f"f={self.flags:x}"] if self.flags != base.FLAGS else []
        fields += [f"s={self.stack:x}"] if self.stack != base.STACK[self.level] else []
        fields += [f"{name}={self.read(name):x}" for name in CONTROL if self.read(name) != CONTROL[name][1]]
        fields += [f"m{place:x}={data.hex()}" for place, data in self.overlays()]
        return " ".join(fields)


@dataclass
class State:
    """What a processor holds after a turn."""
    level: int
    rip: int
    general: list
    flags: int
    stack: int
    control: dict
    halted: bool
    memory: bytes


def changed_ranges(before, after):
    """The ranges of places whose bytes differ, with gaps of less than eight closed."""
    found = []
    for frame in range(FRAMES):
        first = FRAME * frame
        if before[first:first + FRAME] == after[first:first + FRAME]:
            continue
        for place in range(first, first + FRAME):
            if before[place] == after[place]:
                continue
            if found and place - found[-1][1] < 8:
                found[-1][1] = place + 1
            else:
                found.append([place, place + 1])
    return found


def row_text(case, memory, after, free=None):
    """A row; `memory` is what stood before, and `free` the place of eight bytes that aren't compared, if any."""
    fields = [f"i={after.rip:x}"]
    fields += [f"p={after.level}"] if after.level != case.level else []
    fields += [f"r{number:x}={value:x}" for number, value in enumerate(after.general) if value != case.register(number)]
    fields += [f"f={after.flags & ~case.undefined:x}"] if after.flags != case.flags else []
    fields += [f"s={after.stack:x}"] if after.stack != case.stack else []
    fields += [f"{name}={after.control[name]:x}" for name in CONTROL if after.control[name] != case.read(name)]
    fields += [f"m{begin:x}={after.memory[begin:end].hex()}" for begin, end in changed_ranges(memory, after.memory)]
    fields += ["h=1"] if after.halted else []
    fields += [f"u={case.undefined:x}"] if case.undefined else []
    fields += [f"k={free:x}"] if free is not None else []
    before = case.before()
    return f"{before} > {' '.join(fields)}".lstrip()
