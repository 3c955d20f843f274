"""The least bytes that spell an instruction, by a search with ../opcodes/reader.py: each prefix that counts, each
opcode, each ModRM, and each SIB that names a wanted place. It shares nothing with the program."""
import functools

from grammar import text_of     # finds reader
from reader import LONGEST, Memory, PREFIXES, read

REXES = [b""] + [bytes([rex]) for rex in range(0x40, 0x50)]
REPEATS = {"No": b"", "WhileEqual": b"\xF3", "WhileNot": b"\xF2"}
OPCODES = [bytes([opcode]) for opcode in range(256) if opcode not in PREFIXES and opcode != 0x0F] \
    + [bytes([0x0F, opcode]) for opcode in range(256)]


def started(head):
    """What the bytes spell with zeros behind them, or None where that is nothing."""
    found = read(head.ljust(LONGEST, b"\0"))
    return None if isinstance(found, str) else found


def kind(instr):
    return instr and (instr.op, instr.condition, instr.width, instr.rep, instr.lock)


def operands(instr):
    """The operands without their displacement."""
    return tuple(place._replace(disp=0) if isinstance(place, Memory) else place for place in (instr.to, instr.source))


def registers(instr):
    """The operands that aren't in memory."""
    return tuple(Memory if isinstance(place, Memory) else place for place in (instr.to, instr.source))


@functools.cache
def opcodes_by_operation():
    """The opcodes that each operation has somehow."""
    found = {}
    for opcode in OPCODES:
        for front in (b"", b"\x66", b"\x41", b"\x48"):
            for modrm in range(0, 256, 8):
                instr = started(front + opcode + bytes([modrm]))
                if instr:
                    found.setdefault((instr.op, instr.condition), {})[opcode] = True
    return found


@functools.cache
def has_modrm(opcode):
    """Whether ModRM follows: what the opcode spells, its length or its operands go by the byte behind it."""
    found = [started(b"\x48" + opcode + bytes([modrm])) for modrm in range(0, 256, 4)]
    return len({it and (it.length, operands(it)) for it in found}) > 1


def heads(wanted):
    """Prefixes and opcode of all that spell instructions of this kind, with REX or 0, and what may be ModRM."""
    op, condition, _, rep, lock = wanted
    for opcode in opcodes_by_operation()[op, condition]:
        for narrow in (b"", b"\x66"):
            for rex in REXES:
                head = narrow + b"\xF0" * lock + REPEATS[rep] + rex + opcode
                if any(kind(started(head + bytes([modrm]))) == wanted for modrm in range(0, 256, 8)):
                    yield head, rex[0] if rex else 0, range(256 * has_modrm(opcode))


@functools.cache
def sib_place(rex, modrm, sib):
    """What SIB names behind these bits of ModRM and REX."""
    return operands(started(bytes([0x40 | rex, 0x8B, modrm, sib])))[1]


def starts(wanted, group):
    """All that can stand in front of a displacement and a number, with what it spells before zeros."""
    shapes = {registers(instr) for instrs in group.values() for instr in instrs}
    places = {place for both in group for place in both if isinstance(place, Memory)}
    for head, rex, modrms in heads(wanted):
        yield head, started(head)
        for modrm in modrms:
            start = head + bytes([modrm])
            found = started(start)
            if kind(found) != wanted or registers(found) not in shapes:
                continue
            yield start, found
            if modrm & 7 == 4 and found.length > started(head + bytes([modrm & 0xF8])).length:
                for sib in range(256):
                    if sib_place(rex & 3, modrm & 0xC7, sib) in places:
                        yield start + bytes([sib]), started(start + bytes([sib]))


def numbered(start, instr):
    """The bytes with a displacement and a number behind them that spell the instruction."""
    displacement = next((place.disp for place in (instr.to, instr.source) if isinstance(place, Memory)), 0)
    for first in (0, 1, 4):
        for second in (0, 1, 2, 4, 8):
            data = start + displacement.to_bytes(8, "little")[:first] + instr.value.to_bytes(8, "little")[:second]
            if len(data) <= LONGEST and read(data) == instr._replace(length=len(data)):
                yield data


def order(data):
    return len(data), data


def least_of(instrs):
    """The least bytes of each instruction; instructions have no length."""
    groups, best = {}, {}
    for instr in instrs:
        groups.setdefault(kind(instr), {}).setdefault(operands(instr), []).append(instr)
    for wanted, group in groups.items():
        for start, found in starts(wanted, group):
            for instr in group.get(operands(found), []) if kind(found) == wanted else []:
                for data in numbered(start, instr):
                    best[instr] = min(best.get(instr, data), data, key=order)
    return best


def least_of_all(size):
    """The least bytes of each instruction that so many bytes or fewer spell, by a look at all of them."""
    found = {}
    for count in range(1, size + 1):
        for value in range(256 ** count):
            data = value.to_bytes(count, "big")
            instr = read(data)
            if not isinstance(instr, str) and instr.length == count:
                found.setdefault(instr._replace(length=0), data)
    return found
