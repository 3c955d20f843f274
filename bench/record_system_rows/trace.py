"""Reads a trace (docs/FORMATS.md, "The lines of a trace"), and follows the machine's state through it."""
from dataclasses import dataclass, field

FRAME = 4096
GENERAL = "rax rcx rdx rbx rsp rbp rsi rdi r8 r9 r10 r11 r12 r13 r14 r15".split()
CONTROL = "cr0 cr2 cr3 cr4".split()
FLAGS = {"cf": 0, "pf": 2, "af": 4, "zf": 6, "sf": 7, "if": 9, "df": 10, "of": 11}
# Changes that have no number: of translations, of the console, of the answer of a call.
TOLD = "fill drop flush console halted deliver accepted refused place source".split()


@dataclass
class Step:
    """A line of a step: `kind` is `instruction`, `interrupt`, `event` or `call`."""
    turn: int
    address: int
    code: bytes
    text: str
    changes: list
    kind: str = field(init=False)

    def __post_init__(self):
        first = self.text.split()[0]
        self.kind = first if first in ("interrupt", "event", "call") and not self.code else "instruction"

    def told(self, word):
        return [it.split() for it in self.changes if it.split()[0] == word]


def step_of(line):
    head, *changes = line.rstrip("\n").split("; ")
    turn, _, _, address, code, *text = head.split(" ", 5)
    return Step(int(turn), int(address, 16), b"" if code == "-" else bytes.fromhex(code), text[0], changes)


class Traced:
    """The state that a trace's lines lead to."""

    def __init__(self, first, lines, frames):
        self.lines = lines
        self.memory = bytearray(FRAME * frames)
        self.halted = False
        words = first.split()[4:]
        values = dict(zip(words[::2], words[1::2]))
        self.level = int(values["cpl"])
        self.rip, self.flags, self.stack = (int(values[name], 16) for name in ("rip", "flags", "ss"))
        self.general = [int(values[name], 16) for name in GENERAL]
        self.control = {name: int(values[name], 16) for name in CONTROL}
        self.ahead = next(lines)
        while self.ahead.startswith("frame "):
            _, number, data = self.ahead.split()
            self.memory[FRAME * int(number):FRAME * int(number) + FRAME] = bytes.fromhex(data)
            self.ahead = next(lines)

    def steps(self):
        """Each step, with the state behind it applied."""
        while self.ahead and not self.ahead.startswith("end "):
            step = step_of(self.ahead)
            self.apply(step)
            yield step
            self.ahead = next(self.lines, "")
        self.end = self.ahead.strip()

    def apply(self, step):
        self.rip = (step.address + len(step.code)) % 2 ** 64
        for change in step.changes:
            word, *values = change.split()
            if word in GENERAL:
                self.general[GENERAL.index(word)] = int(values[0], 16)
            elif word in FLAGS:
                self.flags = self.flags & ~(1 << FLAGS[word]) | int(values[0]) << FLAGS[word]
            elif word in CONTROL:
                self.control[word] = int(values[0], 16)
            elif word == "rip":
                self.rip = int(values[0], 16)
            elif word == "flags":
                self.flags = int(values[0], 16)
            elif word == "cpl":
                self.level = int(values[0])
            elif word == "ss":
                self.stack = int(values[0], 16)
            elif word == "mem":
                place, data = int(values[0], 16), bytes.fromhex(values[1])
                self.memory[place:place + len(data)] = data
            elif word not in TOLD:
                raise ValueError(f"no change of a trace: {change}")
