"""Cases of MOV from and to control registers."""
import itertools

import base
from base import FRAME, RAX, RBX, RCX
from system import MIXED, case

WP, NW, CD = 0x10000, 0x20000000, 0x40000000


def control_reads():
    for number, register in itertools.product((0, 2, 3, 4), range(16)):
        rex = "41" if register > 7 else ""
        yield case(f"{rex}0f20{0xC0 | number << 3 | register & 7:02x}", control={"c2": MIXED})
    for value in (base.CR0 & ~WP, base.CR0 | CD, base.CR0 | CD | NW):
        yield case("0f20c0", control={"c0": value})
        yield case("480f20c1", control={"c0": value})
    for number in (1, 5, 6, 7):
        yield case(f"0f20{0xC0 | number << 3:02x}")
        yield case(f"0f22{0xC0 | number << 3:02x}")
    for code in ("440f20c8", "440f22c8", "0f2003", "0f2203", "f00f20c0", "f00f22c0", "660f20d0", "f30f20d8"):
        yield case(code, general={RBX: base.CR0})


def control_writes():
    """MOV to CR0, CR2, CR3 and CR4."""
    good = (base.CR0, base.CR0 & ~WP, base.CR0 | CD | NW, base.CR0 | CD, base.CR0 & ~WP | CD | NW)
    for value, before in itertools.product(good, good[:3]):
        for register in (RAX, RBX, 9):
            rex = "41" if register > 7 else ""
            yield case(f"{rex}0f22{0xC0 | register & 7:02x}", general={register: value}, control={"c0": before})
    for bit in range(32, 64):
        yield case("0f22c0", general={RAX: base.CR0 | 1 << bit})
        yield case("0f22e0", general={RAX: base.CR4 | 1 << bit})
    for value in (0, 1, 0x80000000, 0x80010000, 0x10001, base.CR0 | NW, base.CR0 & ~WP | NW, 2 ** 64 - 1):
        yield case("0f22c0", general={RAX: value})
    for value in (0, 1, 0x5000, 0x16000, MIXED, 2 ** 64 - 1, 2 ** 47):
        yield case("0f22d0", general={RAX: value})
        yield case("410f22d7", general={15: value}, control={"c2": 0x123})
    for number in range(64):
        yield case("0f22d8", general={RAX: number * FRAME})
    for value in (0x5008, 0x5018, 0x5FFF, 0x40000, 2 ** 40, 2 ** 52, 2 ** 63 | 0x5000):
        yield case("0f22d8", general={RAX: value})
    for value, before in itertools.product((0x20, 0x100020), repeat=2):
        for register in (RAX, RCX, 12):
            rex = "41" if register > 7 else ""
            yield case(f"{rex}0f22{0xE0 | register & 7:02x}", general={register: value}, control={"c4": before})
    for bit in range(32):
        yield case("0f22e0", general={RAX: 0x100020 ^ 1 << bit})
    yield case("0f22e0", general={RAX: 0})


def control_cases():
    yield from control_reads()
    yield from control_writes()
