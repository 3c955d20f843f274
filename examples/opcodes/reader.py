"""A reader of instructions over the tables of opcode_map.py.

It is written from the manual and docs/MACHINE.md, not from the program: the decoder's test vectors come from it."""
from collections import namedtuple

from opcode_map import ONE_BYTE, TWO_BYTE

PREFIXES = {0x66, 0xF0, 0xF2, 0xF3, 0x2E, 0x36, 0x3E, 0x26} | set(range(0x40, 0x50))
LONGEST = 15

# The operations in the order of the program's list, by which the checksums number them, from 1 on.
OPERATIONS = """
ADD OR ADC SBB AND SUB XOR CMP TEST NOT NEG INC DEC MUL IMUL IMUL3 DIV IDIV ROL ROR SHL SHR SAR BT BTS BTR BTC BSF BSR
MOV MOVSXD MOVZX8 MOVZX16 MOVSX8 MOVSX16 LEA XCHG XADD CMPXCHG BSWAP CMOV SET CBW CWDE CDQE CWD CDQ CQO
PUSH POP PUSHFQ POPFQ LEAVE MOVS CMPS STOS LODS SCAS
J JMP CALL RET LOOP LOOPE LOOPNE JRCXZ INT3 INT IRETQ UD2 NOP CMC CLC STC CLI STI CLD STD
HLT IN OUT MOVFC MOVTC MOVTD WRMSR LLDT LTR LGDT LIDT LMSW INVLPG
""".split()

# A line of a table: opcodes from first to last, reg of ModRM or None, mnemonic, operands, notes.
Line = namedtuple("Line", "first last digit name operands notes")
# What prefix bytes say. size is the operand size in bits, by REX.W and 66.
Front = namedtuple("Front", "length size narrow rex lock rep")
# A place: a register, AH to BH, memory or the number beside.
Memory = namedtuple("Memory", "base index scale disp rip")
Instr = namedtuple("Instr", "op condition width to source value rep lock length")


def lines(text):
    for row in text.strip().splitlines():
        opcode, name, operands, *notes = row.split(None, 3)
        opcode, _, digit = opcode.partition("/")
        first, _, last = opcode.partition("-")
        yield Line(int(first, 16), int(last or first, 16), int(digit) if digit else None, name,
                   [] if operands == "-" else operands.split(","), notes[0] if notes else "")


MAPS = tuple([[line for line in lines(text) if line.first <= opcode <= line.last] for opcode in range(256)]
             for text in (ONE_BYTE, TWO_BYTE))


class Cut(Exception):
    """A byte that is needed is missing."""


def signed(data):
    return int.from_bytes(data, "little", signed=True)


def front(data):
    length = 0
    narrow = lock = False
    rep = "No"
    while length < len(data) and data[length] in PREFIXES:
        byte = data[length]
        narrow |= byte == 0x66
        lock |= byte == 0xF0
        rep = {0xF3: "WhileEqual", 0xF2: "WhileNot"}.get(byte, rep)
        length += 1
    last = data[length - 1] if length else 0
    rex = last if 0x40 <= last <= 0x4F else None
    size = 64 if rex and rex & 8 else 16 if narrow else 32
    return Front(length, size, narrow, rex, lock, rep)


def take(data, at, count):
    if len(data) < at + count:
        raise Cut
    return data[at:at + count]


def modrm_place(data, at, rex):
    """The place by mod and rm, with the bytes of ModRM, SIB and displacement (tables 2-2 and 2-3)."""
    modrm, = take(data, at, 1)
    mod, rm = modrm >> 6, modrm & 7
    if mod == 3:
        return ("reg", rm + 8 * (rex & 1)), 1
    length = 1
    base, index, scale, rip = rm + 8 * (rex & 1), None, 1, False
    bare = rm == 5
    if rm == 4:
        sib, = take(data, at + 1, 1)
        length = 2
        base = (sib & 7) + 8 * (rex & 1)
        bare = sib & 7 == 5
        number = (sib >> 3 & 7) + 8 * (rex >> 1 & 1)
        if number != 4:
            index, scale = number, 1 << (sib >> 6)
    size = {0: 4 if bare else 0, 1: 1, 2: 4}[mod]
    if mod == 0 and bare:
        base, rip = None, rm == 5
    disp = signed(take(data, at + length, size))
    return Memory(base, index, scale, disp % 2 ** 64, rip), length + size


def byte_register(number, rex):
    return ("high", number - 4) if rex is None and 4 <= number < 8 else ("reg", number)


def stands(line, found, modrm):
    """Whether the line is the one, by its notes and by ModRM. A form that asks for a missing ModRM needs it."""
    notes, rex = line.notes, found.rex or 0
    if "with REX.W" in notes and not rex & 8 or "with REX.B" in notes and not rex & 1:
        return False
    if "without REX.B" in notes and rex & 1 or "size 32 or 64" in notes and found.size == 16:
        return False
    if "v, size" in notes and found.size != int(notes.split()[-1]):
        return False
    memory = any(operand[0] == "M" for operand in line.operands)
    register = "register form" in notes or any(operand == "Rv" for operand in line.operands)
    if line.digit is None and not memory and not register:
        return True
    if modrm is None:
        raise Cut
    if line.digit is not None and modrm >> 3 & 7 != line.digit:
        return False
    return not (memory and modrm >> 6 == 3 or register and modrm >> 6 != 3)


def width_of(line, found):
    types = {operand[1] for operand in line.operands if operand[0] in "EGJMRXYZIU" and len(operand) > 1}
    if line.name in ("IN", "OUT", "SETcc") or "Eb" in line.operands[:1] or line.operands[:1] == ["Gb"]:
        return 8
    if line.name in ("LLDT", "LTR", "LMSW"):
        return 16
    if "f64" in line.notes:
        return 64
    if "d64" in line.notes:
        return 16 if found.narrow and found.size != 64 else 64
    if line.name in ("MOVFC", "MOVTC", "MOVTD", "LGDT", "LIDT", "INVLPG", "INT", "NOP"):
        return 64
    if "AL" in line.operands or "Zb" in line.operands or types == {"b"}:
        return 8
    if not line.operands and "v, size" not in line.notes:
        return 64
    return found.size


def number(kind, data, at, width):
    """An immediate by its letters, extended to the width and cut to it, and the count of its bytes."""
    count = {"b": 1, "w": 2, "z": 2 if width == 16 else 4, "v": width // 8}[kind[1]]
    found = take(data, at, count)
    value = int.from_bytes(found, "little") if kind[0] == "U" else signed(found)
    return value % 2 ** (64 if kind[0] == "J" else width), count


# Rows whose one operand is read alone.
SOURCE_ALONE = "PUSH CALL JMP Jcc LOOP LOOPE LOOPNE JRCXZ RET INT LGDT LIDT LLDT LTR LMSW INVLPG".split()
STRINGS = "MOVS CMPS STOS LODS SCAS".split()


def finish(line, found, opcode, data, at):
    rex = found.rex or 0
    width = width_of(line, found)
    modrm = any(operand[0] in "EGMRCD" and operand not in ("CL", "DX") for operand in line.operands)
    modrm |= line.digit is not None
    place, reg = None, 0
    if modrm:
        byte, = take(data, at, 1)
        reg = (byte >> 3 & 7) + 8 * (rex >> 2 & 1)
        if "Rq" in line.operands:
            place, length = ("reg", (byte & 7) + 8 * (rex & 1)), 1
        else:
            place, length = modrm_place(data, at, rex)
        at += length
    value, places = 0, []
    for operand in line.operands:
        if operand in ("AL", "rAX", "CL", "DX"):
            places.append(("reg", {"AL": 0, "rAX": 0, "CL": 1, "DX": 2}[operand]))
        elif operand[0] in "EMR":
            is_byte = operand == "Eb" and isinstance(place, tuple) and place[0] == "reg"
            places.append(byte_register(place[1], found.rex) if is_byte else place)
        elif operand[0] == "G":
            places.append(byte_register(reg, found.rex) if operand == "Gb" else ("reg", reg))
        elif operand[0] == "Z":
            register = (opcode & 7) + 8 * (rex & 1)
            places.append(byte_register(register, found.rex) if operand == "Zb" else ("reg", register))
        elif operand[0] in "CD":
            value = reg
        elif operand == "1":
            value = 1
            places.append(("value",))
        elif operand[0] in "IUJ":
            value, count = number(operand, data, at, width)
            at += count
            places.append(("value",))
    name = line.name
    if name == "RET" and not places:
        places = [("value",)]
    if name in STRINGS or name == "NOP" or name.endswith("FENCE"):
        name, places = "NOP" if name not in STRINGS else name, []
    if name in ("MOVZX", "MOVSX"):
        name += "8" if line.operands[1] == "Eb" else "16"
    if name == "IMUL" and len(places) == 3:
        name, places = "IMUL3", places[:2]
    if name in SOURCE_ALONE or name in ("MOVTC", "MOVTD"):
        places = [None] + places
    to, source = (places + [None, None])[:2]
    condition = opcode & 15 if name.endswith("cc") else None
    return Instr(name.removesuffix("cc"), condition, width, to, source, value,
                 found.rep if name in STRINGS else "No", found.lock, at)


def whole(data):
    """The instruction that the bytes begin with, or None where they begin none; Cut where they end too soon."""
    found = front(data)
    at = found.length
    opcode, = take(data, at, 1)
    at += 1
    rows = MAPS[0]
    if opcode == 0x0F:
        opcode, = take(data, at, 1)
        at += 1
        rows = MAPS[1]
    modrm = data[at] if at < len(data) else None
    for line in rows[opcode]:
        if stands(line, found, modrm):
            return finish(line, found, opcode, data, at)
    return None


def read(data):
    """The instruction that at most 15 bytes begin with, or the word Short, TooLong or Unknown."""
    try:
        found = whole(data)
    except Cut:
        return "Short" if len(data) < LONGEST else "TooLong"
    return found if found else "Unknown"
