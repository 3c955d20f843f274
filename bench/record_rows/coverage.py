"""Says whether rows cover the table of opcodes: each row of the table at each of its widths, in its register form and
in its memory form, with an effect that isn't a fault, but for what always faults here.

usage: coverage.py < ROWS"""
import sys

from table import LINES, PRIVILEGED, widths_of
from reader import MAPS, front, read, stands

# These leave to a delivery, or always fault.
FAULTING = PRIVILEGED + "UD2 INT3 INT IRETQ".split()
# Rows whose width says nothing.
OF_NO_WIDTH = FAULTING + "NOP SETcc LFENCE MFENCE SFENCE".split()


def table_row(code):
    """The row of the table that the bytes have, and whether they name memory."""
    found = front(code)
    at = found.length
    escaped = code[at] == 0x0F
    at += escaped
    rest = code[at + 1:]
    modrm = rest[0] if rest else None
    line = next(it for it in MAPS[escaped][code[at]] if stands(it, found, modrm))
    has_modrm = any(it[0] in "EGMR" and it not in ("CL", "DX") for it in line.operands) or line.digit is not None
    return escaped, line, has_modrm and modrm >> 6 != 3


def widths_in_table(line):
    if line.name in OF_NO_WIDTH:
        return [None]
    if "f64" in line.notes or line.name in ("PUSHFQ", "POPFQ"):
        return [64]
    if "d64" in line.notes:
        return [64, 16]
    return widths_of(line) if line.operands or line.notes else [64]


def wanted():
    """Each row of the table with a width and a form."""
    for escape, line in LINES:
        letters = "".join(it[0] for it in line.operands)
        forms = [False] * ("E" in letters or "M" not in letters) + [True] * ("E" in letters or "M" in letters)
        for width in widths_in_table(line):
            yield from ((bool(escape), line.first, line.digit, width, form) for form in forms)


def main():
    found = {}
    for row in sys.stdin:
        before, _, after = row.partition(">")
        code = bytes.fromhex(before.split()[0])
        instr = read(code)
        if isinstance(instr, str):
            continue
        escaped, line, in_memory = table_row(code)
        if " x=" in after and line.name not in FAULTING:
            continue
        width = None if line.name in OF_NO_WIDTH else instr.width
        key = escaped, line.first, line.digit, width, in_memory
        found[key] = found.get(key, 0) + 1
    missing = [key for key in wanted() if key not in found]
    for escaped, opcode, digit, width, in_memory in missing:
        place = "memory" if in_memory else "register"
        print(f"no row: {'0F ' * escaped}{opcode:02X}{'' if digit is None else f'/{digit}'} width {width} {place}")
    print(f"{len(found)} rows of the table by width and form, {len(missing)} of them without a row")
    return 1 if missing else 0


if __name__ == "__main__":
    sys.exit(main())
