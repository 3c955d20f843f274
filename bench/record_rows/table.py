"""Cases of the rows of examples/opcodes/opcode_map.py: widths, operands in registers and in memory, values."""
import itertools
import pathlib
import sys

sys.path.insert(0, str(pathlib.Path(__file__).resolve().parents[2] / "examples" / "opcodes"))

from encoding import (RAX, RCX, RDX, RBX, RSP, RBP, RSI, RDI, R8, R9, R10, R11, R12, R13, R14, R15, Case, Memory,
                      Register, byte, encode, encode_short, high, write)
from opcode_map import ONE_BYTE, TWO_BYTE
from reader import lines
from values import FLAGS

# Each row with the escape byte of its map.
LINES = [(b"", line) for line in lines(ONE_BYTE)] + [(b"\x0f", line) for line in lines(TWO_BYTE)]
# What runs at CPL 0 alone.
PRIVILEGED = "HLT CLI STI IN OUT MOVFC MOVTC MOVTD WRMSR LLDT LTR LGDT LIDT LMSW INVLPG".split()

PAIRS = [(Register(first), Register(second)) for first, second in (
    (RAX, RCX), (RDX, RBX), (RSI, RDI), (R8, R9), (R15, RAX), (RCX, R14), (RSP, RBP), (R12, R13), (R10, R11))]
BYTE_PAIRS = [(byte(RAX), byte(RCX)), (high(RAX), high(RBX)), (byte(RDX), high(RCX)), (high(RBX), high(RDX)),
              (byte(R8), byte(R15)), (byte(RSP), byte(RDI)), (byte(RBP), byte(RSI)), (byte(RAX), high(RAX)),
              (byte(R9), byte(RAX)), (high(RCX), byte(RBX)), (byte(R14), byte(RDX))]
# Registers beside an operand in memory: none that MODES takes.
BESIDE = [Register(number) for number in (RAX, RCX, RDX, R8, R11, R14, R15)]
BYTES_BESIDE = [byte(RAX), high(RAX), byte(RCX), byte(R8), high(RDX), byte(R15), byte(RDX), high(RCX), byte(R11)]

MODES = [
    Memory(base=RBX),
    Memory(base=RBP, disp=8, size=1),
    Memory(base=RSP, disp=0x10, size=1),
    Memory(base=RSI, disp=-0x10, size=1),
    Memory(base=RDI, disp=0x180, size=4),
    Memory(base=RBX, index=RSI, scale=1, disp=-0x210A00 + 0x20, size=4),
    Memory(disp=0x210240),
    Memory(disp=0x210280, rip=True),
    Memory(base=RBP, disp=-0x120, size=4),
    Memory(base=R12, general={R12: 0x210300}),
    Memory(base=R13, size=1, general={R13: 0x210340}),
    Memory(base=RBX, index=R9, scale=4, disp=4, size=1, general={R9: 0x11}),
    Memory(index=R10, scale=8, disp=0x210000, general={R10: 0x48}),
    Memory(base=R12, index=R13, scale=2, general={R12: 0x210200, R13: 0x31}),
    Memory(base=RSP, index=R9, scale=8, disp=-8, size=1, general={R9: 2 ** 64 - 4}),
]


class Turns:
    """Each choice in turn, so that a few rows of each kind meet all of them."""

    def __init__(self):
        self.choices = {}

    def next(self, key, items):
        return next(self.choices.setdefault(key, itertools.cycle(items)))

    def next_where(self, key, items, fits):
        return next(it for it in iter(lambda: self.next(key, items), None) if fits(it))


TURNS = Turns()


def widths_of(line):
    """The widths in bits that a row has."""
    if line.name in ("SETcc", "CMOVcc"):
        return [8] if line.name == "SETcc" else [16, 32, 64]
    if line.notes.startswith("v, size"):
        return [int(line.notes.split()[-1])]
    if line.notes in ("size 32 or 64", "with REX.W"):
        return [32, 64] if "32" in line.notes else [64]
    first = line.operands[0] if line.operands else ""
    return [8] if first.endswith("b") or first == "AL" else [16, 32, 64]


def operand_width(letters, width, name):
    """The width of one operand in a row of this width."""
    if name == "MOVSXD" and letters == "Ev":
        return 32
    if letters in ("Eb", "Gb", "Zb", "CL", "AL"):
        return 8
    return 16 if letters == "Ew" else width


def number_bytes(letters, width, value):
    size = {"b": 1, "w": 2, "z": 2 if width == 16 else 4, "v": width // 8}[letters[1]]
    return (value % 2 ** (8 * size)).to_bytes(size, "little")


def places_of(line, width, in_memory):
    """Operands for the letters of a row: registers, or memory and a register beside it."""
    letters = [it for it in line.operands if it[0] in "EGMRZ"]
    are_bytes = [operand_width(it, width, line.name) == 8 for it in letters]
    if in_memory:
        only = len(letters) > 1 and all(are_bytes)
        beside = TURNS.next("byte", BYTES_BESIDE) if only else TURNS.next("beside", BESIDE)
        mode = TURNS.next_where("mode", MODES, lambda it: not (beside.high and it.wants_rex))
        return {"E": mode, "G": beside} if len(letters) > 1 else {"E": mode}
    if all(are_bytes):
        places = TURNS.next("byte pair", BYTE_PAIRS)
    elif any(are_bytes):
        wide = TURNS.next("pair", PAIRS)[0]
        places = wide, TURNS.next_where("byte pair", BYTE_PAIRS,
                                        lambda it: not (it[0].high and (width == 64 or wide.wants_rex)))[0]
    else:
        places = TURNS.next("pair", PAIRS)
    return {it[0]: place for it, place in zip(letters, places)}


def write_row(escape, line, width, places, values, undefined=0, flags=None, before=(), prefixes=b""):
    """A case of a row: a value for each operand, in their order; `before` are further registers."""
    case = Case(TURNS.next("flags", FLAGS) if flags is None else flags, before)
    number = b""
    for letters, value in zip(line.operands, values):
        if letters[0] in "IU":
            number += number_bytes(letters, width, value)
        elif letters != "1":
            fixed = {"AL": byte(RAX), "rAX": Register(RAX), "CL": byte(RCX)}
            case.put(fixed.get(letters) or places[letters[0]], operand_width(letters, width, line.name), value)
    if "Z" in places:
        code = encode_short(escape, line.first, width, places["Z"], number, prefixes)
    else:
        reg = places.get("G", 0) if line.digit is None else line.digit
        code = encode(escape + bytes([line.first]), width, reg, places.get("E") or places.get("R"), number, prefixes)
    write(case, code, undefined)
