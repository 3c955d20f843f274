#!/usr/bin/env python3
"""Writes the table of spellings: texts, what GNU as makes of the same instructions, and the least bytes that spell
them.

The instructions are those that the rows of ../opcodes/opcode_map.py spell at each width and in each form, places in
memory, and the edges below. The least bytes are those of search.py; where they are one or two, a look at all strings of
so many bytes has to find the same. usage: spellings.py >spellings.txt     takes minutes; needs GNU as"""
import sys

sys.dont_write_bytecode = True

from grammar import text_of
from intel import assembled, intel
from make_vectors import grow, opcode_text, spellings
from reader import LONGEST, MAPS, read
from search import least_of, least_of_all

# A title, and spellings below it, of which many aren't the least.
EDGES = """
Numbers that fit a byte, and those that don't; the accumulator's own opcodes
04 7F; 80 C4 01; 40 80 C4 01; 41 80 C4 01; A8 01; F6 C0 01; F6 C1 01
05 7F 00 00 00; 81 C0 80 00 00 00; 81 C0 80 FF FF FF; 81 C1 7F 00 00 00; 81 C1 80 00 00 00; A9 01 00 00 00
F7 C1 01 00 00 00
66 05 7F 00; 66 81 C0 80 00; 66 81 C0 80 FF; 66 81 C1 7F 00; 66 3D FF FF; 66 0D 01 00; 66 2D 80 FF; 66 A9 01 00
48 05 7F 00 00 00; 48 81 C0 00 00 00 80; 48 81 C1 80 FF FF FF; 48 81 C1 FF FF FF 7F; 48 A9 01 00 00 00
69 C1 7F 00 00 00; 69 C1 80 00 00 00; 66 69 C1 80 FF; 66 69 C1 80 00; 48 69 08 80 FF FF FF
Numbers that are moved and pushed
C6 C0 41; C6 C4 41; 40 C6 C4 41; C7 C0 01 00 00 00; 41 C7 C0 00 00 00 00; 66 C7 C0 01 00; B8 FF FF FF FF
48 C7 C0 FF FF FF FF; 48 B8 FF FF FF 7F 00 00 00 00; 48 B8 00 00 00 80 00 00 00 00; 48 B8 00 00 00 80 FF FF FF FF
48 B8 FF FF FF FF 00 00 00 00; 49 BC EF CD AB 89 67 45 23 01
68 7F 00 00 00; 68 80 00 00 00; 68 80 FF FF FF; 66 68 7F 00; 66 68 80 00
Registers by the opcode and by ModRM, and in both directions
FF F0; 41 FF F4; 66 FF F0; 8F C0; 41 8F C4; 66 8F C0
8B C1; 44 8B C1; 41 8B C1; 45 8B C1; 48 8B C1; 66 8B C1; 8A C1; 8A E1; 8A CC; 40 8A E1; 40 88 E1; 40 88 CC
03 C1; 0B C1; 13 C1; 1B C1; 23 C1; 2B C1; 33 C0; 3B C1; 3A C4; 85 C1; 85 C8; 84 E1; 84 CC; 85 08
Exchanges with the accumulator, and no operation
87 C8; 87 C1; 48 87 C8; 48 87 C1; 66 87 C8; 66 87 C1; 4C 87 C0; 49 87 C0; 45 87 C0; 44 87 C0; 41 87 C0; 86 C8; 86 C1
87 08; 87 C0; 48 87 C0; 66 87 C0; 86 C0; 48 90; 66 90; F3 90
Shifts by one and by zero
C1 E0 01; C0 E0 01; 66 C1 E0 01; 48 C1 E0 01; C1 20 01; C0 E4 01; C1 E0 00; C1 E0 1F
Control and debug registers, where mod is taken as 3
0F 22 C0; 0F 22 D8; 41 0F 22 D8; 44 0F 22 C0; 0F 22 C7; 0F 22 C4; 0F 22 C5; 0F 20 C0; 0F 20 D0; 41 0F 20 C4; 0F 23 F8
Numbers of RET and INT
C2 00 00; C2 08 00; CD 03; CD 2F; CD FF
Branches to near and far
EB 00; EB FE; E9 FB FF FF FF; E9 7F 00 00 00; E9 80 00 00 00; E9 80 FF FF FF; E9 7F FF FF FF; 66 EB 10
0F 84 00 00 00 00; 0F 84 7F 00 00 00; 0F 84 80 00 00 00; 0F 8F 80 FF FF FF; 0F 8F 7F FF FF FF
E8 00 00 00 00; E8 FF FF FF 7F; E8 00 00 00 80; E2 80; E3 7F; FF 25 00 00 00 00; 48 FF D0; 66 FF E0
LOCK, lawful there or not, and repeats, with the operand size
F0 01 08; 66 F0 01 08; F0 66 01 08; F0 48 01 08; F0 83 00 01; F0 48 0F C1 08; 66 F0 0F B1 0A; F0 87 08; F0 0F BA 28 05
F0 01 C8; F0 90; F0 A4; F0 F3 A4
F3 A4; F3 A5; F3 66 A5; F3 48 A5; F2 A6; F2 66 A7; F3 66 AF; F2 48 AF; F3 66 AB; F2 AD
Prefixes without effect
2E 01 C8; 3E 8B 00; 26 36 F4; 66 C9; 66 EC; 48 0F 01 38; 66 0F 00 D0; F3 0F BC C1; 40 0F 90 C4; 0F 90 C8; 66 0F B6 C1
"""

SIBS = [f"{scale | index << 3 | base:02X}" for scale in (0, 0xC0) for index in (0, 4, 5) for base in (0, 4, 5)]
# By mod, displacements of which each address takes one in turn.
DISPLACEMENTS = [["34 12 00 00"], ["00", "7F", "80"],
                 ["00 00 00 00", "7F 00 00 00", "80 FF FF FF", "80 00 00 00", "44 33 22 11"]]


def addresses():
    """MOV from places: each mod and rm, and bases and indices 0, 4 and 5, all with each of their high bits."""
    turn = 0
    for rex in ("", "41", "42", "43"):
        for modrm in range(0x08, 0xC8, 0x40):
            for rm in range(8):
                for sib in SIBS if rm == 4 else [""]:
                    turn += 1
                    ends = DISPLACEMENTS[modrm >> 6]
                    yield f"{rex}8B{modrm | rm:02X}{sib}{ends[turn % len(ends)]}"


def instruction(data):
    """The one that the bytes begin with."""
    return read(data[:LONGEST])._replace(length=0)


def is_of_row(line, instr):
    return instr.op.startswith("NOP" if line.name.endswith("FENCE") else line.name.removesuffix("cc"))


def line_of_as(line, instr):
    """The instruction for as. What decodes as NOP is written as the row's own."""
    if line.name.endswith("FENCE"):
        return line.name.lower()
    return "nop dword ptr [rax]" if line.name == "NOP" and line.operands else intel(instr)


def row_groups():
    for escaped in (False, True):
        for opcode in range(256):
            for line in MAPS[escaped][opcode]:
                digit = "" if line.digit is None else f"/{line.digit}"
                title = f"{opcode_text(escaped, opcode).strip()}{digit} {line.name} {','.join(line.operands)}".strip()
                found = dict.fromkeys(instruction(data) for data in map(grow, spellings(escaped, opcode, line)) if data)
                yield title, [(instr, line_of_as(line, instr)) for instr in found if is_of_row(line, instr)]


def groups():
    """Titles, and below each the instructions, with their lines for as."""
    yield from row_groups()
    found = dict.fromkeys(instruction(bytes.fromhex(data)) for data in addresses())
    yield "Places in memory", [(instr, intel(instr)) for instr in found]
    title = None
    for row in EDGES.strip().split("\n"):
        try:
            found = [instruction(bytes.fromhex(data)) for data in row.split(";")]
        except ValueError:
            title = row
            continue
        yield title, [(instr, intel(instr)) for instr in dict.fromkeys(found)]
        title = None


def why(instr, theirs, least):
    """Why as has other bytes than the least."""
    if theirs is None:
        return "as refuses it"
    if instruction(theirs) != instr:
        return f"as makes {text_of(instruction(theirs))}"
    if len(least) < len(theirs):
        return "shorter"
    return "{:02x} before {:02x}".format(*next(both for both in zip(least, theirs) if both[0] != both[1]))


def row_of(instr, line, theirs, least):
    row = f"{text_of(instr)} | {line} | {theirs.hex() if theirs else '-'}"
    return row if theirs == least else f"{row} | {least.hex()} | {why(instr, theirs, least)}"


def main():
    table = list(groups())
    pairs = [pair for _, group in table for pair in group]
    codes = iter(assembled([line for _, line in pairs]))
    least, short = least_of(instr for instr, _ in pairs), least_of_all(2)
    for instr, data in least.items():
        assert data == short.get(instr, data) and (instr in short) == (len(data) <= 2), text_of(instr)
    print("# Written by spellings.py: text | for as | as's bytes, and where they aren't the least | least bytes | why")
    for title, group in table:
        if title:
            print(f"# {title}")
        for instr, line in group:
            print(row_of(instr, line, next(codes), least[instr]))


if __name__ == "__main__":
    main()
