"""Cases of the stack, of flow, of strings, of single flags, of prefixes, and of instructions that do nothing."""
from encoding import (RAX, RBP, RBX, RCX, RDI, RDX, RIP, RSI, RSP, R11, R12, R13, Case, Memory, Register, encode,
                      encode_short, write)
from table import MODES, TURNS
from values import DF, FLAGS, MIXED, OTHER, STATUS, ZF, condition_flags, edges

STACK = 0x210800
# Where branches by a register, by memory and by the stack lead: the last three aren't canonical.
TARGETS = [0x200900, 0x123456789A, 0x7FFFFFFFFFFF, 0, 0x800000000000, 0xFFFF7FFFFFFFFFFF, MIXED]


def is_canonical(address):
    return not 2 ** 47 <= address < 2 ** 64 - 2 ** 47


def holding(numbers, flags=FLAGS[0], general=(), width=64):
    """A case with numbers in memory, by their addresses."""
    case = Case(flags, general)
    for address, value in numbers.items():
        case.put_number(address, value, width)
    return case


def prefixed(width, code):
    """Of a string instruction or a push: the prefixes of its width before its bytes."""
    return {8: b"", 16: b"\x66", 32: b"", 64: b"\x48"}[width] + code


def push_pop_rows(width):
    """`width` is 64, or 16 with 66."""
    size = 16 if width == 16 else 32
    popped = {STACK: MIXED}
    for register in map(Register, range(16)):
        write(Case(), encode_short(b"", 0x50, size, register))
        write(holding(popped), encode_short(b"", 0x58, size, register))
    for mode in (MODES[0], MODES[2], MODES[7], MODES[10], MODES[14]):
        case = Case()
        case.put(mode, width, MIXED)
        write(case, encode(b"\xff", size, 6, mode))
        write(holding(popped, general=mode.general), encode(b"\x8f", size, 0, mode))
    for register in map(Register, (RAX, RSP, R12)):
        write(Case(), encode(b"\xff", size, 6, register))
        write(holding(popped), encode(b"\x8f", size, 0, register))
    for number in (0, 0x7F, 0x80, 0xFF):
        write(Case(), encode(b"\x6a", size, number=bytes([number])))
    for number in (1, 0x7FFFFFFF, 0x80000000, 0xFFFF8000):
        write(Case(), encode(b"\x68", size, number=number.to_bytes(4, "little")[:size // 8]))


def pop_by_rsp_rows(width):
    """POP to memory finds its address after RSP rose."""
    for mode in (Memory(base=RSP), Memory(base=RSP, disp=8, size=1), Memory(base=RSP, disp=-8, size=1),
                 Memory(base=RSP, index=RBX, disp=-0x210100, size=4)):
        write(holding({STACK: OTHER}), encode(b"\x8f", 16 if width == 16 else 32, 0, mode))


def stack_rows():
    for width in (64, 16):
        push_pop_rows(width)
        pop_by_rsp_rows(width)
    # 66 counts for nothing beside REX.W
    write(Case(), b"\x66\x48\x50")
    write(holding({STACK: MIXED}), b"\x66\x48\x58")
    # across two pages that may be written
    for address in (0x211004, 0x211001, 0x211000):
        write(Case(general={RSP: address}), b"\x50")
        write(holding({address - 8: MIXED}, general={RSP: address - 8}), b"\x59")
    for rbp in (0x210900, 0x210FFC, 0x210100):
        write(holding({rbp: OTHER}, general={RBP: rbp}), b"\xc9")


def flag_stack_rows():
    """PUSHFQ and POPFQ; what is popped has neither TF, NT, RF, VM, AC, VIF, VIP nor ID set."""
    for flags in FLAGS + [0x202 | DF]:
        write(Case(flags), b"\x9c")
        write(Case(flags), b"\x48\x9c")
    for flags, value in ((0x202, 0xCD7), (0xED7, 0), (0x202, 0x2), (0xED7, 0x202), (0x202, 0x8D5), (0xA02, 0x45),
                         (0x203, 0x490), (0x602, 0xFFFFFFFFFFC0B0AA)):
        write(holding({STACK: value}, flags), b"\x9d")


def displaced(opcode, displacement):
    return opcode + (displacement % 2 ** 32).to_bytes(4, "little")


def branch_rows():
    for condition in range(16):
        for flags in condition_flags(condition):
            write(Case(flags), bytes([0x70 + condition, TURNS.next("near", (0x10, 0x80, 0xFE, 0x7F, 0))]))
            far = TURNS.next("far", (0x20, -0x40, 0x12345678, -0x100, 0))
            write(Case(flags), displaced(bytes([0x0F, 0x80 + condition]), far))
    for near in (0, 0x10, 0x7F, 0x80, 0xFE):
        write(Case(), bytes([0xEB, near]))
    for far in (0, 0x20, -0x40, 0x7FFFFFFF, -0x100):
        write(Case(), displaced(b"\xe9", far))
        write(Case(), displaced(b"\xe8", far))


def count_rows():
    """LOOP and its kin, and JRCXZ: at counts about 0 and at 2^32, with ZF set and clear."""
    for opcode in (0xE0, 0xE1, 0xE2, 0xE3):
        for count in (0, 1, 2, 2 ** 32, 2 ** 32 + 1, 2 ** 64 - 1):
            for flags in (0x202, 0x202 | ZF, 0x202 | STATUS & ~ZF):
                write(Case(flags, {RCX: count}), bytes([opcode, TURNS.next("near", (0x10, 0x80, 0xFE, 0x7F))]))


def write_far(case, code, digit, target):
    """A call whose target isn't canonical finds its return address on the stack already: README.md says why."""
    if digit == 2 and not is_canonical(target):
        case.put_number(STACK - 8, RIP + len(code))
    write(case, code)


def far_rows():
    """Branches and calls by a register and by memory, and returns."""
    for digit in (2, 4):
        for target in TARGETS:
            number = TURNS.next("far register", (RAX, R11, RBX, RBP, R13))
            write_far(Case(general={number: target}), encode(b"\xff", 32, digit, Register(number)), digit, target)
            mode = TURNS.next("far mode", (MODES[0], MODES[2], MODES[7], MODES[11]))
            case = Case()
            case.put(mode, 64, target)
            write_far(case, encode(b"\xff", 32, digit, mode), digit, target)
        write(Case(), encode(b"\xff", 32, digit, Register(RSP)))
        below = Memory(base=RSP, disp=-8, size=1)
        for size in (32, 64):
            write(holding({STACK - 8: 0x200940}), encode(b"\xff", size, digit, below))
    for target in TARGETS:
        write(holding({STACK: target}), b"\xc3")
        freed = TURNS.next("freed", (0, 8, 0x7FFF, 0x8000, 0xFFF8))
        write(holding({STACK: target}), b"\xc2" + freed.to_bytes(2, "little"))


# String instructions by their byte forms, and what they do.
STRINGS = {0xA4: "MOVS", 0xA6: "CMPS", 0xAA: "STOS", 0xAC: "LODS", 0xAE: "SCAS"}
COMPARING = (0xA6, 0xAE)


def string_case(first, width, count, is_equal):
    """A case with the operands of a string instruction, and whether they are equal."""
    case = Case(TURNS.next("string flags", [0x202, 0x602, 0x202 | STATUS, 0x602 | STATUS & ~1, 0x242]), {RCX: count})
    value = TURNS.next("string", edges(width)[1:])
    other = value if is_equal else TURNS.next("other string", edges(width))
    if first in (0xAA, 0xAE):
        case.put(Register(RAX), width, value)
    else:
        case.put_number(0x210A00, value, width)
    if first in COMPARING:
        case.put_number(0x210B00, other, width)
    return case, value == other


def string_rows():
    """Each string instruction at each width, alone and repeated: at counts from 0 on, up and down, on bytes that are
    equal and that aren't."""
    for first, width, prefix in ((first, width, prefix) for first in STRINGS for width in (8, 16, 32, 64)
                                 for prefix in (b"", b"\xf3", b"\xf2")):
        compares = first in COMPARING
        counts = (7,) if not prefix else (2 ** 32, 0, 1, 3) if compares or prefix == b"\xf3" else (0, 3)
        code = prefix + prefixed(width, bytes([first + (width != 8)]))
        for count in counts:
            for is_equal in (True, False) if compares else (False,):
                case, are_equal = string_case(first, width, count, is_equal)
                goes_on = count > 1 and prefix == (b"\xf3" if are_equal else b"\xf2")
                # between two turns the flags aren't compared: README.md says why
                write(case, code, STATUS if compares and goes_on else 0)
    crossing_string_rows()


def crossing_string_rows():
    """From one page to the next, and onto itself."""
    for rsi, rdi in ((0x210FFD, 0x210A00), (0x210A00, 0x210FFE), (0x210FFB, 0x210FFB), (0x210A00, 0x210A03)):
        for code in (b"\x48\xa5", b"\xf3\x48\xa5", b"\xa7", b"\xab", b"\x66\xa5"):
            write(holding({rsi: MIXED}, general={RSI: rsi, RDI: rdi, RCX: 2}), code)


# Instructions that do nothing, with prefixes that have no effect.
QUIET = """
90 6690 4890 f390 2e90 3e90 f290 0f1f00 660f1f440000 0f1f80ffffff7f 0f1fc0 0f1e0b f30f1efa 0faee8 0faef0 0faef8
""".split()


def single_rows():
    for flags in FLAGS + [0x602, 0x603]:
        for opcode in (0xF5, 0xF8, 0xF9, 0xFC, 0xFD):
            write(Case(flags), bytes([opcode]))
    for code in QUIET:
        write(Case(FLAGS[1]), bytes.fromhex(code))
    # no access is made, so none is refused
    for address in (2 ** 63, 0x213000):
        write(Case(general={RBX: address}), bytes.fromhex("0f1f03"))


def prefix_rows():
    """Prefixes without an effect: segments but FS and GS, a REX that isn't last, several operand sizes, repeats."""
    for prefix in ("2e", "36", "3e", "26", "f2", "f3", "6666", "4c66", "48f3", "2e3e2636", "f366"):
        for code in ("03c8", "8b0b", "0109", "3b4b08"):
            write(holding({0x210100: OTHER, 0x210140: MIXED}, general={RCX: 0x210140}), bytes.fromhex(prefix + code))
    # 66 before near branches (SDM volume 2, appendix A.2.5: f64)
    for code in "e810000000 e910000000 eb10 7410 0f8410000000 c3 c20800 ffe0 ffd1 ff13 e210".split():
        case = holding({0x210100: 0x200920, STACK: 0x200940}, 0x242, {RCX: 0x200900, RDX: 1})
        write(case, bytes.fromhex("66" + code))
    # fifteen bytes
    write(Case(), bytes.fromhex("66" * 13 + "03c8"))
    write(Case(), bytes.fromhex("2e" * 12 + "4803c8"))


def flow_rows():
    for rows in (stack_rows, flag_stack_rows, branch_rows, count_rows, far_rows, string_rows, single_rows, prefix_rows):
        rows()
