#!/usr/bin/env python3
"""Says how much of the table of opcodes the rows at CPL 0 have: each row of the table at each of its widths, in its
register form and in its memory form, with an effect that isn't a fault, but for what always faults.

usage: bench/record_system_rows/coverage.py < ROWS"""
import pathlib
import sys

sys.dont_write_bytecode = True
HERE = pathlib.Path(__file__).resolve().parent
sys.path.insert(0, str(HERE))

import base
from opcode_rows import key_of_code, user
from reader import read
from rows import BASE, PLACES

# These always end in a delivery, or change neither registers nor memory: their width says nothing.
DELIVERED = "UD2 INT3 INT WRMSR MOVTD LLDT LTR LGDT LMSW".split()
# What a row of one turn can't show, and what the profile decides otherwise than a processor.
NOT_HERE = "LIDT WRMSR MOVTD LLDT LTR LGDT LMSW".split()


def fields_of(text):
    return dict(it.split("=") for it in text.split())


def code_of(fields):
    """The bytes of the instruction of a row, where it stands in the base's pages."""
    rip = int(fields.get("i", f"{base.START[0]:x}"), 16)
    if rip >> 12 not in PLACES:
        return b""
    place = PLACES[rip >> 12] * base.FRAME + rip % base.FRAME
    found = bytearray(BASE[place:place + 15])
    for key, value in fields.items():
        if key[0] == "m":
            for at, byte in enumerate(bytes.fromhex(value), int(key[1:], 16)):
                if place <= at < place + 15:
                    found[at - place] = byte
    return bytes(found)


def is_delivered(after):
    """Whether the row ends in one of the gates."""
    return after["i"].startswith("ffffff80000010") or after["i"].startswith("ffffff80000011")


def main():
    found = set()
    for row in sys.stdin:
        before, _, after = row.partition(">")
        before, after = fields_of(before), fields_of(after)
        code = code_of(before)
        if "p" in before or isinstance(read(code), str):
            continue
        name = user.table_row(code)[1].name
        if name in DELIVERED or not is_delivered(after):
            found.add(key_of_code(code))
    names = {(bool(escape), line.first, line.digit): line.name for escape, line in user.LINES}
    wanted = [key for key in user.wanted() if names[key[:3]] not in NOT_HERE]
    missing = [key for key in wanted if key not in found]
    for escaped, opcode, digit, width, in_memory in missing:
        place = "memory" if in_memory else "register"
        print(f"no row: {'0F ' * escaped}{opcode:02X}{'' if digit is None else f'/{digit}'} width {width} {place}")
    print(f"{len(wanted) - len(missing)} of {len(wanted)} rows of the table, by width and form, at CPL 0")
    return 1 if missing else 0


if __name__ == "__main__":
    sys.exit(main())
