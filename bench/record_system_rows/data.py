"""The cases of bench/record_rows, moved to CPL 0: code in linear page 13, data in page 11 (a user's) or 14 (the
supervisor's), and the others of its pages by the ends that they have."""
import contextlib
import io
import pathlib
import sys
from dataclasses import replace

sys.path.insert(0, str(pathlib.Path(__file__).resolve().parents[1] / "record_rows"))

import encoding

import base
from base import RBP, RBX, RDI, RSI, RSP
from rows import Case

# Before the modules that take it from there.
encoding.RIP = base.START[0]

import faults
import flow
import operations
import table

DATA = {RBX: 0x100, RSP: 0x800, RBP: 0x900, RSI: 0xA00, RDI: 0xB00}
THEIR_MODES = list(table.MODES)
# Where the ends of pages there are, and what stands for them here: may be written behind may be written, may be read
# behind may be written, absent behind may be read, may be written behind absent, absent behind may be read once more.
ENDS = {0x211: 0x18, 0x212: 0x12, 0x213: 0x16, 0x214: 0x17, 0x215: 0x16}
# What stands for the middle of a page; the first is that of the data.
MIDDLES = {0x211: 0x18, 0x212: 0x15, 0x213: 0x16, 0x214: 0x17, 0x215: 0x16, 0x200: 0x13}
NEAR = 0x80


def moved(address, data):
    """What stands here for an address there."""
    end = (address + NEAR) >> 12
    if end in ENDS and address + NEAR & 0xFFF < 2 * NEAR:
        return address + (ENDS[end] - end << 12)
    page = address >> 12
    return address + ((MIDDLES | {0x210: data}).get(page, page) - page << 12)


def moved_mode(mode, data):
    """A place in memory whose displacement has an address there."""
    if mode.index == RSI:
        return replace(mode, disp=0x20 - encoding.BASE[RSI])
    if mode.disp >> 12 == 0x210:
        return replace(mode, disp=moved(mode.disp, data))
    return mode


def case_of(line, data):
    """A case, from its line there."""
    code, *fields = line.split()
    case = Case(general={number: data << 12 | offset for number, offset in DATA.items()})
    for text in fields:
        key, _, value = text.partition("=")
        if key[0] == "m":
            case.put_linear(moved(int(key[1:], 16), data), bytes.fromhex(value))
        elif key == "f":
            # there IF is always set
            case.flags = int(value, 16) & ~0x200
        elif key == "u":
            case.undefined = int(value, 16)
        else:
            case.general[int(key[1:], 16)] = moved(int(value, 16), data)
    case.put_code(bytes.fromhex(code))
    return bytes.fromhex(code), case


def data_cases(data):
    """Each case with the bytes of its instruction."""
    for number, offset in DATA.items():
        encoding.BASE[number] = data << 12 | offset
    table.MODES[:] = [moved_mode(mode, data) for mode in THEIR_MODES]
    flow.STACK = encoding.BASE[RSP]
    encoding.SEEN.clear()
    text = io.StringIO()
    with contextlib.redirect_stdout(text):
        operations.value_rows()
        flow.flow_rows()
        faults.fault_rows()
    return [case_of(line, data) for line in text.getvalue().splitlines()]
