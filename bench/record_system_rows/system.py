"""Cases of what ends in a delivery, of the return from one, and of instructions that want CPL 0."""
import itertools

import base
from base import RAX, RBP, RBX, RCX, RDI, RDX, RSI, RSP, SLOT
from rows import Case

CF, PF, AF, ZF, SF, IF, DF, OF = 1, 4, 0x10, 0x40, 0x80, 0x200, 0x400, 0x800
STATUS = CF | PF | AF | ZF | SF | OF
# The flags that a program may change, one by one, all and none.
EACH_FLAG = [2 | flag for flag in (0, CF, PF, AF, ZF, SF, IF, DF, OF, STATUS | IF | DF)]
MIXED = 0x9C3A57E184D26B2F
OUTSIDE = [2 ** 47, 2 ** 63, 2 ** 64 - 2 ** 47 - 0x1000, MIXED]
LEVELS = (0, 3)


def case(code, level=0, **state):
    """A case of an instruction, by its digits."""
    found = Case(level=level, **state)
    found.put_code(bytes.fromhex(code))
    return found


NO_INSTRUCTION = """0f0b 660f0b 480f0b f00fa2c0 f090 f001c8 f0ff33 f00f0b f0c3 06 07 0e 16 17 1e 1f 27 2f 37 3f 60 61
82c101 9a ce d40a d50a d6 ea 8dc0 0f04 0f0a 0f0c 0f24c0 0f36 0f39 0fffc0 0fa6c0 0f00f0 c6c801 fed0 fff8""".split()


def no_instruction():
    """UD2, LOCK where it may not stand, bytes that are no instruction, and too many of them."""
    for level, code in itertools.product(LEVELS, NO_INSTRUCTION):
        yield case(code, level)
    for level in LEVELS:
        yield case("66" * 15, level)
        yield case("2e" * 14 + "03", level)
        yield case("f0" * 15, level)
        for flags in EACH_FLAG:
            yield case("0f0b", level, flags=flags)
        for rsp in (0, 1, 7, 0x11804, 2 ** 63, SLOT + 0x3FF8, SLOT + 0x5000, MIXED):
            yield case("0f0b", level, general={RSP: rsp})


def interrupts():
    """INT n and INT3: each vector, and those whose gate isn't a program's or isn't there."""
    for level in LEVELS:
        for vector in range(48):
            yield case(f"cd{vector:02x}", level)
        for vector in (48, 49, 64, 127, 128, 254, 255):
            yield case(f"cd{vector:02x}", level)
        yield case("cc", level)
        for flags in EACH_FLAG:
            yield case("cc", level, flags=flags)
            yield case("cd2f", level, flags=flags)
        for rsp in (0, 1, 8, 0x11801, 2 ** 63, SLOT + 0x4000, 2 ** 64 - 8):
            yield case("cd04", level, general={RSP: rsp})
            yield case("cc", level, general={RSP: rsp})
    for vector in (0, 3, 13, 33):
        yield case(f"cd{vector:02x}", 3, flags=2 | IF | DF | OF)


def other_gates():
    """Gates that lead elsewhere, or that a program may use; the trap stack's top elsewhere."""
    offsets = (0x13100, SLOT + 0x1000, 0xFFFFFFFF80000000, 0x7FFFFFFFF000, 0x8000_0000_0000 - 1, 0x123456789ABC, 0)
    for level, offset in itertools.product(LEVELS, offsets):
        for code, vector, dpl in (("0f0b", 6, 0), ("cc", 3, 3), ("cd21", 0x21, 3), ("f4" if level else "cd0d", 13, 0)):
            found = case(code, level)
            found.put(16 * vector, base.gate(offset, dpl))
            yield found
    for level, dpl in itertools.product(LEVELS, range(4)):
        for vector in (5, 32):
            found = case(f"cd{vector:02x}", level)
            found.put(16 * vector, base.gate(base.TEXT + 64 + 8 * vector, dpl))
            yield found
    for level, top in itertools.product(LEVELS, (0x14800, 0x14807, 0x1480F, 0x14810, 0x18000, SLOT + 0x3800)):
        for code in ("0f0b", "cc", "8b042500600100"):
            found = case(code, level)
            found.put(0x424, top.to_bytes(8, "little"))
            yield found


DIVISIONS = [("f6f1", 8, 6), ("f7f1", 32, 6), ("48f7f1", 64, 6), ("66f7f1", 16, 6), ("f6f9", 8, 7), ("48f7f9", 64, 7),
             ("f633", 8, 6), ("f733", 32, 6), ("48f73b", 64, 7), ("66f73b", 16, 7)]


def divisions():
    """#DE: by zero, and where the quotient doesn't fit."""
    for level, (code, width, digit) in itertools.product(LEVELS, DIVISIONS):
        for divisor, upper in ((0, 0), (1, 1), (5, 2 ** 15)):
            found = case(code, level, general={RCX: divisor, RDX: upper, RAX: 0x8000 if width == 8 else 7})
            if code.endswith(("33", "3b")):
                found.put_number(0x11100, divisor, width)
            yield found


WANT_ZERO = """f4 fa fb 48f4 e4ea e6e9 ec ee 0f30 0f22c0 0f20c0 0f22d0 0f20d0 0f22d8 0f20d8 0f22e0 0f20e0 0f23c0 0f00d0
0f00d8 0f01f0 0f0113 0f011b 0f013b 410f22c1 410f20d9 0f013c2500600100""".split()


def wanting_zero():
    """Instructions that want CPL 0, at CPL 3; those of them that change nothing else, at CPL 0."""
    for code in WANT_ZERO:
        yield case(code, 3)
        yield case(code, 3, flags=2 | IF | STATUS)
    for flags in EACH_FLAG:
        for code in ("fa", "fb", "f4", "f8", "f9", "f5", "fc", "fd"):
            yield case(code, 0, flags=flags)
        for code in ("f8", "f9", "f5", "fc", "fd"):
            yield case(code, 3, flags=flags)
    for address in (0x11100, 0x16000, 0, SLOT, SLOT + 0x3000, 2 ** 63, 2 ** 47, MIXED):
        yield case("0f013b", 0, general={RBX: address})
        yield case("0f013b", 3, general={RBX: address})


def ports():
    """Ports that no device has."""
    for port in (0xE9, 0xEC, 0xE0, 0xE7):
        yield case(f"e6{port:02x}", general={RAX: 0x1234})
        yield case("ee", general={RDX: port, RAX: 0xFF80})
        if port != 0xE9:
            yield case(f"e4{port:02x}")
            yield case("ec", general={RDX: port})
    for port in (0x1234, 0xFFF0, 0xE9E9):
        yield case("ee", general={RDX: port})
        yield case("ec", general={RDX: port})


def flag_words():
    """PUSHFQ and POPFQ: each flag set, cleared and kept, at both CPLs."""
    words = EACH_FLAG + [0, 0xED7, 0xCD7]
    for level, flags in itertools.product(LEVELS, EACH_FLAG):
        yield case("9c", level, flags=flags)
        yield case("489c", level, flags=flags)
    for level, flags, word in itertools.product(LEVELS, (2, 0xED7), words):
        found = case("9d", level, flags=flags)
        found.put_number(0x11800, word)
        yield found


def frame(found, address, rip, code, flags, rsp, stack):
    """Lays what IRETQ pops."""
    for number, value in enumerate((rip, code, flags, rsp, stack)):
        found.put_number(address + 8 * number, value)
    return found


def returns():
    """IRETQ to each CPL, with each flag, from aligned and other places."""
    ways = [(0, 8, 0x10), (0, 8, 0), (0, 0x1B, 0x23), (3, 0x1B, 0x23)]
    for (level, code, stack), flags, before in itertools.product(ways, EACH_FLAG, (2, 0xED7)):
        yield frame(case("48cf", level, flags=before), 0x11800, 0x10100, code, flags, 0x11500, stack)
    targets = [(0, 0), (0x13000, 0x11800), (0x7FFFFFFFFFFF, 0x7FFFFFFFFFF8), (SLOT + 0x1000, SLOT + 0x4000),
               (2 ** 64 - 1, 1), (0x16000, 2 ** 63), (0xFFFF800000000000, MIXED)]
    for (level, code, stack), (rip, rsp) in itertools.product(ways, targets):
        yield frame(case("48cf", level), 0x11800, rip, code, 0x202, rsp, stack)
    for (level, code, stack), at in itertools.product(ways, (0x11804, 0x117F1, 0x17FE0, 0x17FFC, 0x11FE0, 0x17FD8)):
        yield frame(case("48cf", level, general={RSP: at}), at, 0x10100, code, 0xAD7, 0x11500, stack)
    # what is past the low 16 bits of CS and SS counts for nothing
    for (level, code, stack), upper in itertools.product(ways, (0x10000, 0xFFFFFFFFFFFF0000, 0x1234 << 32)):
        yield frame(case("48cf", level), 0x11800, 0x10100, code | upper, 2, 0x11500, stack | upper)
    # SS 0 before
    yield frame(case("48cf", 0, stack=0), 0x11800, 0x10100, 8, 2, 0x11500, 0)
    yield frame(case("48cf", 0, stack=0), 0x11800, 0x10100, 8, 2, 0x11500, 0x10)
    yield frame(case("48cf", 0, stack=0), 0x11800, 0x10100, 0x1B, 2, 0x11500, 0x23)


# CS and SS by which IRETQ doesn't return.
WRONG = [(0, 0x10), (0, 0x23), (1, 0x23), (2, 0), (3, 0x23), (3, 0), (0x1B, 0), (0x1B, 3), (8, 3), (8, 0x23),
         (0x1B, 0x10), (0x10, 0x10), (0x23, 0x23), (0x18, 0x20), (0x1A, 0x22), (0x38, 0x10), (8, 0x18)]


def bad_returns():
    """IRETQ that is refused: by its selectors, and by a stack that can't be read."""
    for level in LEVELS:
        for code, stack in WRONG + ([(8, 0x10), (8, 0)] if level == 3 else []):
            yield frame(case("48cf", level), 0x11800, 0x10100, code, 2, 0x11500, stack)
        good = (8, 0x10) if level == 0 else (0x1B, 0x23)
        for rip in OUTSIDE:
            yield frame(case("48cf", level), 0x11800, rip, good[0], 2, 0x11500, good[1])
        for rsp in (0x16000, 0x15FF8, 0x15FE0, 0x16FF0, 0x10FFC, 0x14100, 0x13FF0, 2 ** 63, 2 ** 47 - 8):
            yield frame(case("48cf", level, general={RSP: rsp}), rsp, 0x10100, good[0], 2, 0x11500, good[1])


def stopping():
    """What is refused by the stack's address: of pushes, pops, calls, and operands by RSP and RBP."""
    codes = "50 58 6a01 e810000000 c3 9c 9d c9 ff33 8f03 8b0424 8b4500 894500 014500 ffd1 48cf".split()
    for level, code, address in itertools.product(LEVELS, codes, OUTSIDE[:2]):
        yield case(code, level, general={RSP: address, RBP: address, RCX: 0x10100})


def outside():
    """#GP: operands, branches and returns whose address isn't canonical."""
    codes = "8b03 8903 0103 880b 8a0b 48a5 48ab 48ad 48af ff33 8f03 ff13 ff23 f00103 8703 0fb10b 480f4503".split()
    for level, code, address in itertools.product(LEVELS, codes, OUTSIDE):
        yield case(code, level, general={RBX: address, RSI: address, RDI: address})
    for level, address in itertools.product(LEVELS, OUTSIDE):
        yield case("ffe3", level, general={RBX: address})
        found = case("c3", level)
        found.put_number(0x11800, address)
        yield found
        yield case("90", level, rip=address)


def system_cases():
    for cases in (no_instruction, interrupts, other_gates, divisions, wanting_zero, ports, flag_words, returns,
                  bad_returns, stopping, outside):
        yield from cases()
