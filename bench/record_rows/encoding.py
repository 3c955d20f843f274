"""Operands, the bytes of instructions (SDM volume 2, 2.1 and 2.2), and cases."""
from __future__ import annotations

from dataclasses import dataclass, field

RAX, RCX, RDX, RBX, RSP, RBP, RSI, RDI = range(8)
R8, R9, R10, R11, R12, R13, R14, R15 = range(8, 16)

RIP = 0x200800
FLAGS = 0x202

# What a register holds where a case doesn't say; record.c has the same list.
BASE = [0x0706050403020100 + 0x1010101010101010 * number for number in range(16)]
BASE[RBX], BASE[RSP], BASE[RBP], BASE[RSI], BASE[RDI] = 0x210100, 0x210800, 0x210900, 0x210A00, 0x210B00


@dataclass(frozen=True)
class Register:
    """A general register, its low byte where it is `byte`, or the second byte of one of the first four where `high`."""
    number: int
    byte: bool = False
    high: bool = False

    @property
    def code(self):
        return self.number + 4 * self.high

    @property
    def wants_rex(self):
        return self.number >= 8 or self.byte and self.number >= 4


def byte(number):
    return Register(number, byte=True)


def high(number):
    return Register(number, high=True)


@dataclass(frozen=True)
class Memory:
    """A place in memory; `size` is the displacement's bytes. With `rip` the displacement leads to the address `disp`.
    `general` are the registers that it wants; where it isn't `filled`, a case doesn't say its bytes."""
    base: int | None = None
    index: int | None = None
    scale: int = 1
    disp: int = 0
    size: int = 0
    rip: bool = False
    general: dict = field(default_factory=dict, hash=False)
    filled: bool = True

    @property
    def wants_rex(self):
        return any(number is not None and number >= 8 for number in (self.base, self.index))

    def address(self, general):
        if self.rip:
            return self.disp
        held = dict(enumerate(BASE)) | general
        base = 0 if self.base is None else held[self.base]
        index = 0 if self.index is None else held[self.index]
        return (base + index * self.scale + self.disp) % 2 ** 64


def modrm(reg, place, around):
    """ModRM, SIB and displacement; `around` counts the bytes before and behind them, for an address by RIP."""
    reg = (reg & 7) << 3
    if isinstance(place, Register):
        return bytes([0xC0 | reg | place.code & 7])
    if place.rip:
        return bytes([reg | 5]) + ((place.disp - RIP - around - 5) % 2 ** 32).to_bytes(4, "little")
    disp = (place.disp % 2 ** 32).to_bytes(4, "little")
    scaled = place.scale.bit_length() - 1 << 6 | (4 if place.index is None else place.index & 7) << 3
    if place.base is None:
        return bytes([reg | 4, scaled | 5]) + disp
    mod = {0: 0, 1: 1, 4: 2}[place.size] << 6
    if place.index is None and place.base & 7 != 4:
        return bytes([mod | reg | place.base & 7]) + disp[:place.size]
    return bytes([mod | reg | 4, scaled | place.base & 7]) + disp[:place.size]


def rex(width, reg, place):
    """The REX byte, or nothing where none is wanted. `reg` is a register or a digit, `place` an operand or None."""
    bits = 8 * (width == 64)
    operands = [it for it in (reg, place) if isinstance(it, (Register, Memory))]
    if isinstance(reg, Register):
        bits |= reg.number >> 3 << 2
    if isinstance(place, Register):
        bits |= place.number >> 3
    elif place is not None:
        bits |= (place.index or 0) >> 3 << 1 | (place.base or 0) >> 3
    if not bits and not any(it.wants_rex for it in operands):
        return b""
    if any(isinstance(it, Register) and it.high for it in operands):
        raise ValueError("AH to BH beside REX")
    return bytes([0x40 | bits])


def encode(opcode, width, reg=0, place=None, number=b"", prefixes=b""):
    """The bytes of an instruction with ModRM, or of one without operands."""
    front = prefixes + (b"\x66" if width == 16 else b"") + rex(width, reg, place) + opcode
    if place is None:
        return front + number
    reg = reg.code if isinstance(reg, Register) else reg
    return front + modrm(reg, place, len(front) + len(number)) + number


def encode_short(escape, first, width, register, number=b"", prefixes=b""):
    """An instruction that names its register in the low bits of its opcode."""
    opcode = escape + bytes([first + register.code % 8])
    return prefixes + (b"\x66" if width == 16 else b"") + rex(width, 0, register) + opcode + number


class Case:
    """What stands before an instruction."""

    def __init__(self, flags=FLAGS, general=()):
        self.flags = flags
        self.general = dict(general)
        self.memory = {}

    def put_number(self, address, value, width=64):
        self.memory[address] = (value % 2 ** width).to_bytes(width // 8, "little")

    def put(self, place, width, value):
        """Puts a value into an operand, over the other bits that its register holds."""
        if isinstance(place, Memory):
            self.general |= place.general
            if place.filled:
                self.put_number(place.address(self.general), value, width)
            return
        shift = 8 * place.high
        mask = 2 ** width - 1 << shift
        held = self.general.get(place.number, BASE[place.number])
        self.general[place.number] = held & ~mask | value << shift & mask

    def line(self, code, undefined=0):
        fields = [code.hex()]
        fields += [f"r{number:x}={value:x}" for number, value in sorted(self.general.items()) if value != BASE[number]]
        fields += [f"f={self.flags:x}"] if self.flags != FLAGS else []
        fields += [f"m{address:x}={data.hex()}" for address, data in sorted(self.memory.items()) if any(data)]
        fields += [f"u={undefined:x}"] if undefined else []
        return " ".join(fields)


SEEN = set()


def write(case, code, undefined=0):
    """Writes a case, once."""
    line = case.line(code, undefined)
    if line not in SEEN:
        SEEN.add(line)
        print(line)
