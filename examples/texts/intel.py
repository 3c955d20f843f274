"""Instructions of ../opcodes/reader.py in Intel's syntax, and what GNU as makes of such lines."""
import pathlib
import re
import subprocess
import tempfile

from grammar import text_of     # finds reader
from reader import Memory, STRINGS

HEADER = ".intel_syntax noprefix\n.code64\n"
QUADS = "rax rcx rdx rbx rsp rbp rsi rdi".split()
BYTES = "al cl dl bl spl bpl sil dil".split()
HIGH = "ah ch dh bh".split()
SIZES = {8: "byte", 16: "word", 32: "dword", 64: "qword"}
LETTERS = {8: "b", 16: "w", 32: "d", 64: "q"}
CODES = "o no b ae e ne be a s ns p np l ge le g".split()
REPEATS = {"No": "", "WhileEqual": "rep ", "WhileNot": "repne "}

SYSTEM = {"MOVFC": "cr", "MOVTC": "cr", "MOVTD": "dr"}
NAMES = dict.fromkeys(SYSTEM, "mov") | {"IMUL3": "imul", "MOVZX8": "movzx", "MOVZX16": "movzx", "MOVSX8": "movsx",
                                        "MOVSX16": "movsx"}
SHIFTS = "ROL ROR SHL SHR SAR".split()
BRANCHES = "J JMP CALL LOOP LOOPE LOOPNE JRCXZ".split()
# Operations whose number has no sign, and the second operand's bits where they aren't the width; 0 for a place whose
# size isn't named.
UNSIGNED = ["RET", "INT", "IN", "OUT", *SHIFTS]
SOURCE_BITS = dict.fromkeys(SHIFTS, 8) | dict.fromkeys(("LEA", "LGDT", "LIDT", "INVLPG"), 0) | {
    "MOVZX8": 8, "MOVSX8": 8, "MOVZX16": 16, "MOVSX16": 16, "MOVSXD": 32, "IN": 16}


def signed(value, bits):
    return value - (1 << bits) if value >> bits - 1 else value


def register(number, bits):
    if number >= 8:
        return f"r{number}" + LETTERS[bits] * (bits < 64)
    if bits == 8:
        return BYTES[number]
    return {16: "", 32: "e", 64: "r"}[bits] + QUADS[number][1:]


def memory(place, bits):
    parts = ["rip"] if place.rip else [] if place.base is None else [register(place.base, 64)]
    if place.index is not None:
        parts.append(f"{register(place.index, 64)}*{place.scale}")
    size = f"{SIZES[bits]} ptr " if bits else ""
    displacement = f"{signed(place.disp, 64):+#x}" if place.disp or not parts else ""
    return f"{size}[{'+'.join(parts)}{displacement}]"


def number(instr):
    """An immediate, or a target counted from the branch's first byte, where as takes the short form if that fits."""
    value = signed(instr.value, instr.width)
    if instr.op in BRANCHES:
        short = instr.op != "CALL" and -128 <= value < 128
        return f".+{2 if short else 6 if instr.op == 'J' else 5}{value:+#x}"
    return f"{instr.value if instr.op in UNSIGNED else value:#x}"


def operand(instr, place, bits):
    if isinstance(place, Memory):
        return memory(place, bits)
    if place[0] == "value":
        return number(instr)
    return HIGH[place[1]] if place[0] == "high" else register(place[1], bits)


def operands(instr):
    bits = 16 if instr.op == "OUT" else instr.width, SOURCE_BITS.get(instr.op, instr.width)
    found = [operand(instr, place, size) for place, size in zip((instr.to, instr.source), bits) if place is not None]
    if instr.op in SYSTEM:
        found.insert(instr.op == "MOVFC", f"{SYSTEM[instr.op]}{instr.value}")
    if instr.op == "IMUL3":
        found.append(number(instr))
    return [] if instr.op == "RET" and instr.value == 0 else found


def name(instr):
    if instr.op in STRINGS:
        return instr.op.lower() + LETTERS[instr.width]
    if instr.width == 16 and instr.op in ("PUSHFQ", "POPFQ"):
        return instr.op.lower()[:-1] + "w"
    if instr.width == 16 and instr.op == "PUSH" and instr.source == ("value",):
        return "pushw"
    return NAMES.get(instr.op, instr.op.lower()) + ("" if instr.condition is None else CODES[instr.condition])


def intel(instr):
    return f"{'lock ' * instr.lock}{REPEATS[instr.rep]}{name(instr)} {', '.join(operands(instr))}".strip()


def listing(lines):
    """What as says, and its listing, of some lines."""
    with tempfile.TemporaryDirectory() as folder:
        source = pathlib.Path(folder) / "source.s"
        source.write_text(HEADER + "".join(f"{line}\n" for line in lines))
        words = ["as", "-al", "--listing-lhs-width=4", "-o", source.with_suffix(".o"), source]
        run = subprocess.run(words, capture_output=True, text=True)
        return run.stderr, run.stdout


def assembled(lines):
    """The bytes of each line by GNU as, or None where as refuses it."""
    behind = HEADER.count("\n") + 1
    wrong = {int(found) - behind for found in re.findall(r":(\d+): Error", listing(lines)[0])}
    said, listed = listing("" if place in wrong else line for place, line in enumerate(lines))
    if said:
        raise ValueError(said)
    found = {int(place) - behind: bytes.fromhex(code)
             for place, code in re.findall(r"^ *(\d+) [0-9a-f]{4} ([0-9A-F ]+?) *\t", listed, re.M)}
    return [found.get(place) for place in range(len(lines))]
