"""Writes the test vectors of the decoder: python3 make_vectors.py ../../crates/decoding_tests/src/decoder

Each row of the opcode maps is spelled at the operand sizes 16 (prefix 66), 32 and 64 (REX.W): in a register form
without REX, in a memory form without, in one relative to RIP with REX.W, and in register and memory forms with REX.R,
X and B; where it has no ModRM, with REX.B. What the bytes mean is said by reader.py; opcode_map.py has the rows in the
manual's letters."""
import os
import sys

from checksums import checksum
from reader import MAPS, Memory, PREFIXES, read

IMMEDIATES = {1: "91", 2: "A4 B3", 4: "A4 B3 C2 D1", 8: "81 92 A3 B4 C5 D6 E7 F8"}
SIB_FORM = "8B F0"      # base 3, index 1, scale 4, displacement -16
RIP_FORM = "FE FF FF FF"


def place_text(place):
    if place is None:
        return "-"
    if isinstance(place, Memory):
        disp = place.disp - 2 ** 64 if place.disp >> 63 else place.disp
        if place.rip:
            return f"[rip{disp:+d}]"
        return f"[r{place.base}+r{place.index}*{place.scale}{disp:+d}]"
    kind = place[0]
    return "imm" if kind == "value" else f"r{place[1]}" if kind == "reg" else "ah ch dh bh".split()[place[1]]


REPEATS = {"No": "", "WhileEqual": " rep", "WhileNot": " repne"}


def vector(data):
    """A line: the bytes, and what they spell."""
    found = read(data)
    text = data.hex(" ").upper()
    if isinstance(found, str):
        return f"{text} = {found}".strip()
    assert found.length == len(data), text
    op = found.op if found.condition is None else f"{found.op}.{found.condition:X}"
    value = f" {found.value:X}" if found.value else ""
    ends = REPEATS[found.rep] + (" lock" if found.lock else "")
    return f"{text} = {op} {found.width} {place_text(found.to)} {place_text(found.source)}{value}{ends}"


def grow(start):
    """The bytes with immediates behind them, as many as they need, or None where they begin no spelling."""
    for size in (0, 1, 2, 4, 8):
        data = bytes.fromhex(start + (IMMEDIATES[size] if size else ""))
        found = read(data)
        if found == "Unknown":
            return None
        if found != "Short":
            return data
    raise AssertionError(start)


def opcode_text(after_escape, opcode):
    return f"0F {opcode:02X} " if after_escape else f"{opcode:02X} "


def spellings(after_escape, opcode, line):
    """The spellings of a line at an opcode, without their immediates."""
    code = opcode_text(after_escape, opcode)
    control = any(operand[0] in "CD" and operand not in ("CL", "DX") for operand in line.operands)
    modrm = control or line.digit is not None or "register form" in line.notes \
        or any(operand[0] in "EGMR" for operand in line.operands)
    if not modrm:
        prefixes = ["66 ", "", "41 ", "48 "]
        if any(operand[0] == "Z" for operand in line.operands):
            prefixes = ["66 ", "66 41 ", "", "41 ", "48 ", "49 "]
        if "Zb" in line.operands:
            prefixes.append("40 ")
        return [prefix + code for prefix in prefixes]
    first, second = (line.digit, line.digit) if line.digit is not None else (4, 6)
    registers, other = 0xC0 | first << 3 | 7, 0xC0 | second << 3 | 2
    memory, relative = 0x44 | second << 3, 0x05 | second << 3
    if control:
        return [f"{prefix}{code}{byte:02X} " for prefix, byte in
                (("66 ", registers), ("", memory), ("48 ", relative), ("4F ", other))]
    return [f"66 {code}{registers:02X} ", f"66 47 {code}{memory:02X} {SIB_FORM} ", f"{code}{memory:02X} {SIB_FORM} ",
            f"44 {code}{registers:02X} ", f"48 {code}{relative:02X} {RIP_FORM} ", f"4F {code}{other:02X} "]


def rows_of(after_escape, opcode):
    """The lines of the opcode, each under its row in the manual's letters, and what begins no spelling."""
    lines = MAPS[after_escape][opcode]
    code = opcode_text(after_escape, opcode)
    if not lines:
        if not after_escape and (opcode in PREFIXES or opcode == 0x0F):
            return []
        return [vector(bytes.fromhex(code))]
    text = []
    for line in lines:
        digit = "" if line.digit is None else f"/{line.digit}"
        notes = f" ({line.notes})" if line.notes else ""
        text.append(f"# {code.strip()}{digit} {line.name} {','.join(line.operands)}".rstrip() + notes)
        for start in spellings(after_escape, opcode, line):
            data = grow(start)
            if data is not None:
                text.append(vector(data))
    return text + unknown(lines, code)


def unknown(lines, code):
    """What at the opcode begins no spelling: digits without a row, forms, and sizes."""
    digits = {line.digit for line in lines}
    starts = []
    if None not in digits:
        starts = [f"{code}{mode | digit << 3:02X}" for digit in range(8) for mode in (0x00, 0xC0)]
    elif any(operand in ("M", "Rv") for line in lines for operand in line.operands):
        starts = [f"{code}00", f"{code}C0"]
    else:
        starts = [prefix + code for prefix in ("66 ", "", "48 ")]
    found = [bytes.fromhex(start) for start in starts]
    return [vector(data) for data in found if read(data) == "Unknown"]


# What prefix bytes and ends of bytes do: a title, and spellings below it.
EDGES = """
No bytes, prefix bytes and the escape alone, and instructions that are cut
-
66
F3 48
0F
0F 22
8F
C7 44 8B F0 A4 B3 C2
A prefix of the address size or of FS and GS begins no spelling
64
65
67
66 67
2E 64
67 8B 74 8B F0
Operand size and REX in either order: REX counts as the last prefix byte alone, and W is more than 66
66 48 01 E7
48 66 01 E7
4F 66 01 F2
41 4C 01 E7
4D 40 00 E7
48 2E 00 E7
48 F3 01 E7
Segment prefixes have no effect
2E 01 E7
36 01 E7
3E 01 E7
26 01 E7
3E 74 91
The last repeat counts, on string instructions alone
F3 A4
F2 A5
F3 66 A6
F2 48 A7
F3 F2 AA
F2 F3 AB
66 F3 AC
F3 4F AD
F2 F3 F2 AE
48 F3 AF
F3 90
F3 49 90
F3 0F BC E7
F2 0F BD E7
F2 E9 A4 B3 C2 D1
F3 0F 1E FA
F3 C3
F3 0F AE E8
LOCK is kept wherever it stands, whether or not it is lawful
F0 01 74 8B F0
66 F0 48 01 35 FE FF FF FF
F0 01 E7
F0 90
F0 F3 A4
F0 0F 22 C7
48 F0 A5
An encoding of a load of a control register inside an immediate is none
48 C7 C7 0F 22 C0 00
Fifteen bytes are the most: the longest spelling, and what is one byte more
66 66 66 66 66 66 66 66 66 66 66 66 66 66
66 66 66 66 66 66 66 66 66 66 66 66 66 66 66
66 66 66 66 66 66 66 66 66 66 66 66 66 66 90
66 66 66 66 66 66 66 66 66 66 66 66 66 66 0F
66 66 66 66 66 66 66 66 66 66 66 66 66 66 06
66 66 66 66 66 66 66 66 66 66 66 66 66 6A 91
66 66 66 66 66 66 66 66 66 66 66 66 66 68 A4
2E 2E 2E 2E 48 B8 81 92 A3 B4 C5 D6 E7 F8
2E 2E 2E 2E 2E 48 B8 81 92 A3 B4 C5 D6 E7 F8
2E 2E 2E 2E 2E 2E 48 B8 81 92 A3 B4 C5 D6 E7
2E 2E 2E 66 66 81 B4 8B F0 FF FF FF A4 B3
2E 2E 2E 2E 2E 66 81 74 8B F0 A4 B3
"""


def edge(line):
    try:
        return vector(bytes.fromhex(line.replace("-", "")))
    except ValueError:
        return f"# {line}"


def edges_file():
    text = "\n".join(map(edge, EDGES.strip().splitlines())) + "\n"
    return "//! What prefix bytes and ends of bytes do. Written by examples/opcodes/make_vectors.py.\n\n" \
        f'#[rattlefmt::skip]\npub(super) static EDGES: [u8; {len(text)}] = *b"\\\n{text}";\n'


def table(name, after_escape, opcodes):
    text = "\n".join(row for opcode in opcodes for row in rows_of(after_escape, opcode)) + "\n"
    return f'#[rattlefmt::skip]\npub(super) static {name}: [u8; {len(text)}] = *b"\\\n{text}";\n'


def vectors_file(title, *tables):
    head = f"//! {title} at the operand sizes 16, 32 and 64.\n//! Written by examples/opcodes/make_vectors.py.\n\n"
    return head + "\n".join(table(*each) for each in tables)


def checksums_file():
    text = "//! A checksum of whole answers for each opcode. Written by examples/opcodes/make_vectors.py.\n"
    for after_escape, name in ((False, "ONE_BYTE"), (True, "TWO_BYTE")):
        sums = [f"0x{checksum(after_escape, opcode):016x}" for opcode in range(256)]
        text += f"\n#[rattlefmt::skip]\npub(super) static {name}: [u64; 256] = [\n"
        text += "".join("    " + ", ".join(sums[at:at + 4]) + ",\n" for at in range(0, 256, 4)) + "];\n"
    return text


def vector_files():
    """The files but for the checksums, by their names."""
    one, two = "(SDM volume 2, table A-2)", "(SDM volume 2, table A-3)"
    return {
        "one_byte_00.rt": vectors_file(
            f"Opcodes 00 to 7F {one}", ("FROM_00", False, range(0x00, 0x40)), ("FROM_40", False, range(0x40, 0x80))),
        "one_byte_80.rt": vectors_file(
            f"Opcodes 80 to BF {one}", ("FROM_80", False, range(0x80, 0x84)), ("FROM_84", False, range(0x84, 0xC0))),
        "one_byte_c0.rt": vectors_file(
            f"Opcodes C0 to FF {one}", ("FROM_C0", False, range(0xC0, 0xE0)), ("FROM_E0", False, range(0xE0, 0x100))),
        "two_byte.rt": vectors_file(
            f"Opcodes after 0F {two}", ("FROM_0F_00", True, range(0x00, 0x80)), ("FROM_0F_80", True, range(0x80, 0xB8)),
            ("FROM_0F_B8", True, range(0xB8, 0x100))),
        "edges.rt": edges_file(),
    }


def main(folder):
    files = {**vector_files(), "checksums.rt": checksums_file()}
    for name, text in files.items():
        with open(os.path.join(folder, name), "w") as file:
            file.write(text)


if __name__ == "__main__":
    main(sys.argv[1])
