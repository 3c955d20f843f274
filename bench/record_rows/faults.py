"""Cases of faults: of accesses, of the stack, of strings, by LOCK, by the CPL, by bytes that are no instruction, and of
two faults at once; beside them accesses that cross pages, and LOCK where it may stand."""
from dataclasses import replace

from encoding import RAX, RBP, RBX, RCX, RDI, RDX, RSI, RSP, R9, R12, R13, Case, Memory, Register, encode, write
from flow import STRINGS, holding, prefixed
from table import BESIDE, BYTES_BESIDE, LINES, PRIVILEGED, TURNS, operand_width, places_of, widths_of, write_row
from values import MIXED, UNDEFINED, undefined_by_shift

SHIFTS = "ROL ROR SHL SHR SAR".split()

# Page 212 may be read alone; pages 213 and 215 are absent; between these, page 214 may be written.
READ_ONLY, ABSENT, PAST = 0x212000, 0x213000, 0x215000
# The last byte of a page before one that may be written, is refused, is absent; and of one that is absent, is there.
CROSSINGS = [0x210FFF, 0x211FFF, 0x212FFF, 0x213FFF, 0x214FFF]
# Addresses that aren't canonical.
OUTSIDE = [2 ** 47, 2 ** 64 - 2 ** 47 - 65, 2 ** 63, MIXED]


def at(address):
    """A place at an address; one that is absent, or crosses to an absent page, has no bytes."""
    return Memory(base=RBX, general={RBX: address}, filled=address < READ_ONLY + 0xF00)


def outside(address):
    """Places at an address that isn't canonical, in the data segment."""
    return [at(address), Memory(base=R12, general={R12: address}), Memory(base=R13, size=1, general={R13: address}),
            Memory(base=RDX, index=RBP, general={RBP: address - 16, RDX: 16}),
            Memory(index=RBP, general={RBP: address}),
            Memory(base=RSI, disp=0x10, size=1, general={RSI: address})]


def outside_stack(address):
    """The same, where the base is RSP or RBP."""
    return [Memory(base=RBP, size=1, general={RBP: address}), Memory(base=RSP, general={RSP: address}),
            Memory(base=RSP, index=RBX, disp=-0x210100, size=4, general={RSP: address}),
            Memory(base=RBP, disp=0x20, size=4, general={RBP: address})]


def outside_in_turn():
    forms = TURNS.next("segment", (outside, outside_stack))
    address = TURNS.next(forms, OUTSIDE)
    return replace(TURNS.next((forms, address), forms(address)), filled=False)


# Rows with cases of their own.
OF_FLOW = "CALL JMP PUSH POP NOP".split()


def accesses_memory(line):
    return any(it[0] == "E" for it in line.operands) and line.name not in PRIVILEGED + OF_FLOW


def with_place(escape, line, width, place, prefixes=b""):
    """A case of a row whose operand in memory stands there. Counts are 1, divisors 7."""
    letters = [it for it in line.operands if it[0] in "EG"]
    are_bytes = all(operand_width(it, width, line.name) == 8 for it in letters)
    beside = TURNS.next_where(*("byte", BYTES_BESIDE) if are_bytes else ("beside", BESIDE),
                              lambda it: not it.high and it.number not in (RAX, RDX))
    values = [7, 1, 0x21] if line.operands[0][0] == "E" else [1, 7, 0x21]
    undefined = undefined_by_shift(line.name, width, 1) if line.name in SHIFTS else UNDEFINED.get(line.name, 0)
    condition = TURNS.next("condition", range(16)) if line.name.endswith("cc") else 0
    row = line._replace(first=line.first + condition)
    places = {"E": place, "G": beside} if len(letters) > 1 else {"E": place}
    write_row(escape, row, width, places, values, undefined, before={RAX: 0x15, RDX: 0}, prefixes=prefixes)


def access_rows():
    """Each row that has an operand in memory: on an absent page, on one that may be read alone, at an address that
    isn't canonical, and across two pages."""
    for escape, line in LINES:
        if not accesses_memory(line):
            continue
        key = escape, line.first, line.digit
        for place in (at(ABSENT + 8), at(READ_ONLY + 0x40), outside_in_turn()):
            with_place(escape, line, TURNS.next(key, widths_of(line)), place)
        width = TURNS.next(key, widths_of(line))
        if operand_width(next(it for it in line.operands if it[0] == "E"), width, line.name) > 8:
            with_place(escape, line, width, at(TURNS.next("crossing", CROSSINGS)))


def moves_across_rows():
    """A load, a store and a sum of each width at places about each end of a page."""
    for width in (16, 32, 64):
        for address in CROSSINGS:
            for offset in range(0, 1 - width // 8, -max(1, width // 32)):
                place = at(address + offset)
                for opcode in (b"\x8b", b"\x89", b"\x01"):
                    write(Case(general=place.general), encode(opcode, width, Register(RCX), place))


# Instructions that read or write at RBX, that pop, that push, and those of strings.
BY_RBX, POPPING = ["488b03", "488903", "480103", "ff33", "8f03", "ff23"], ["58", "c3", "9d"]
PUSHING, BY_RSI_OR_RDI = ["50", "6a00", "e800000000", "9c"], ["48a5", "48ab", "48ad", "48af"]


def edge_rows():
    """Accesses of which one end is canonical and the other isn't."""
    for address in (2 ** 47 - 1, 2 ** 47 - 4, 2 ** 64 - 2 ** 47 - 1):
        pushing = {RSP: (address + 8) % 2 ** 64}
        for codes, general in ((BY_RBX, {RBX: address}), (POPPING, {RSP: address}), (PUSHING, pushing),
                               (BY_RSI_OR_RDI, {RSI: address, RDI: address})):
            for code in codes:
                write(Case(general=general), bytes.fromhex(code))


PUSHES = "50 4157 6a81 6878563412 fff1 ff33 e810000000 ffd1 ff13 9c 6650 66ff33".split()
POPS = "59 415f 8fc1 8f03 c3 c20800 9d 6659 668f03".split()


def stack_fault_rows():
    for code in map(bytes.fromhex, PUSHES):
        for rsp in (ABSENT + 0x100, READ_ONLY + 0x100, READ_ONLY + 1, 0x214001, 2 ** 63, 2 ** 47 + 0x100):
            write(holding({0x210100: 0x200920}, general={RSP: rsp, RCX: 0x200900}), code)
    for code in map(bytes.fromhex, POPS):
        for rsp in (ABSENT + 0x100, 0x212FFF, 0x213FFF, 0x214FFF, 2 ** 63, 2 ** 47, 2 ** 64 - 2 ** 47 - 0x100):
            write(Case(general={RSP: rsp}), code)
        # a pop from a page that may be read alone
        write(holding({READ_ONLY + 0x20: 0x8010C7}, 0xED7, {RSP: READ_ONLY + 0x20}), code)
    for rbp in (ABSENT, 0x214FFF, 2 ** 63, 2 ** 47):
        write(Case(general={RBP: rbp}), b"\xc9")


# RSI and RDI of string instructions: one of the two refused, then both.
ONE_REFUSED = [(ABSENT, 0x210B00), (0x210A00, ABSENT), (0x210A00, READ_ONLY), (READ_ONLY, 0x210B00),
               (2 ** 47, 0x210B00), (0x210A00, 2 ** 63), (PAST, READ_ONLY), (0x214FFF, 0x210B00),
               (0x210A00, 0x211FFF), (0x210A00, 0x214FFF)]
BOTH_REFUSED = [(PAST, ABSENT), (ABSENT, 2 ** 63), (2 ** 47, ABSENT)]


def string_fault_rows():
    for first, name in STRINGS.items():
        # of CMPS with both refused README.md speaks
        for rsi, rdi in ONE_REFUSED + (BOTH_REFUSED if name != "CMPS" else []):
            for prefix in (b"", b"\xf3"):
                width = TURNS.next("string fault", (64, 8, 32, 16, 64, 32))
                case = Case(general={RSI: rsi, RDI: rdi, RCX: 1, RAX: 0x7700000000000000})
                write(case, prefix + prefixed(width, bytes([first + (width != 8)])))
        # no turn is made, and so no access
        write(Case(general={RSI: ABSENT, RDI: 2 ** 63, RCX: 0}), b"\xf3" + bytes([first]))


# The operations that LOCK may stand before, where their first operand is in memory (SDM volume 2, 3.3 LOCK).
LOCKABLE = "ADD OR ADC SBB AND SUB XOR NOT NEG INC DEC XCHG XADD CMPXCHG BTS BTR BTC".split()
# What else it may not stand before.
LOCKED = """
50 58 6a01 6801000000 ff33 8f03 9c 9d c9 7010 0f8010000000 e810000000 e910000000 eb10 ff13 ff23 ffd1 c3 c20800
e010 e110 e210 e310 a4 a5 a6 a7 aa ab ac ad ae af f3a4 f2af 66f3a5 cc cd40 48cf 0f0b 90 0f1f00 488d03 98 99 480fc8
0faee8 0faef0 0faef8 f4 f5 f8 f9 fa fb fc fd e4ea e6e9 ec ee 0f20c0 0f22c0 0f23c0 0f30 0f00d0 0f00d8 0f0113 0f011b
0f01f0 0f013b
""".split()


def lock_rows():
    """LOCK before each row: before a register, before memory, and before memory that refuses the access."""
    for escape, line in LINES:
        letters = {it[0] for it in line.operands}
        if not letters or not letters <= set("EGRIUACr1Z") or line.name in PRIVILEGED + OF_FLOW + ["INT", "RET"]:
            continue
        width = TURNS.next((escape, line.first, line.digit, "lock"), widths_of(line)[::-1])
        may_stand = line.name in LOCKABLE and line.operands[0][0] == "E"
        forms = ["register", "memory", "refused"] if may_stand else \
            [TURNS.next("lock form", ("register", "memory"))] if "E" in letters else ["register"]
        if "register" in forms:
            places = places_of(line, width, False) if letters & set("EGRZ") else {}
            write_row(escape, line, width, places, (5, 3, 1), prefixes=b"\xf0")
        if "memory" in forms:
            with_place(escape, line, width, at(0x210100), b"\xf0")
        if "refused" in forms:
            refused = TURNS.next((line.name, "refused"), [ABSENT, READ_ONLY, 0x210FFF])
            with_place(escape, line, width, at(refused), b"\xf0")
    for code in LOCKED:
        write(Case(), bytes.fromhex("f0" + code))


def by_cpl_rows():
    """What runs at CPL 0 alone, with operands that are there, absent and not canonical."""
    for code in "f4 fa fb e4ea e6e9 ec ee 0f30 660f30 48f4 f3ec e400 e6ff".split():
        write(Case(), bytes.fromhex(code))
    for opcode in (b"\x0f\x20", b"\x0f\x22"):
        for number in (0, 2, 3, 4):
            for register in (RAX, R9):
                write(Case(), encode(opcode, 32, number, Register(register)))
        # mod counts for nothing
        write(Case(), opcode + b"\x03")
        # control registers that aren't there; CR8 is, and is left out
        for number in (1, 5, 6, 7, 9, 15):
            write(Case(), encode(opcode, 32, Register(number), Register(RCX)))
    for number in (0, 3, 6, 7):
        write(Case(), encode(b"\x0f\x23", 32, number, Register(RCX)))
    places = [Register(RAX), at(0x210100), at(ABSENT), at(2 ** 63)]
    for opcode, digit in ((0, 2), (0, 3), (1, 2), (1, 3), (1, 6), (1, 7)):
        is_word = opcode == 0 or digit == 6
        for place in places[0 if is_word else 1:]:
            write(Case(general=getattr(place, "general", ())), encode(bytes([0x0F, opcode]), 32, digit, place))


# UD2, and what is no instruction in 64-bit mode.
NO_INSTRUCTION = """
0f0b 660f0b 06 07 0e 16 17 1e 1f 27 2f 37 3f 60 61 82c101 9a ce d40a d50a d6 ea 8dc0 8fc8 c6c801 c7c801000000 fed0 fef8
fff8 0f04 0f0a 0f0c 0f24c0 0f25c0 0f36 0f39 0fa6c0 0fa7c0 0fbac001 0fbad801 0f00f0 0f00f8 0fb9c0 0fffc0
""".split()


def no_instruction_rows():
    for code in NO_INSTRUCTION:
        write(Case(), bytes.fromhex(code))
    # the first fifteen of more bytes
    for code in ("66" * 15, "2e" * 14 + "03", "66" * 7 + "2e" * 6 + "81c1"):
        write(Case(), bytes.fromhex(code))


def order_rows():
    """Two faults at once: the first of docs/MACHINE.md, 11.1 counts."""
    reads = [(PAST, ABSENT + 0x80), (2 ** 63, ABSENT + 0x80), (PAST, 2 ** 63), (READ_ONLY, READ_ONLY + 0x40)]
    writes = [(PAST, ABSENT), (READ_ONLY, ABSENT), (2 ** 63, ABSENT), (PAST, 2 ** 63), (PAST, 0x210800),
              (READ_ONLY, 0x210800), (2 ** 63, 0x210800), (0x211FFF, 0x210800)]
    for codes, both in (("ff33 ff13 66ff33", reads), ("8f03 668f03", writes)):
        for code in codes.split():
            for rbx, rsp in both:
                write(Case(general={RBX: rbx, RSP: rsp}), bytes.fromhex(code))
    # POP to memory by RSP: the stack serves the read, and not the write
    for code in ("8f0424", "8f442408", "668f0424"):
        for rsp in (READ_ONLY, 0x211FF8, 0x210FF9):
            write(holding({rsp: MIXED}, general={RSP: rsp}), bytes.fromhex(code))
    # a divisor of 0, there and not there
    for digit in (6, 7):
        for address in (READ_ONLY, ABSENT, 2 ** 63):
            write(Case(general={RBX: address}), encode(b"\xf7", 32, digit, at(address)))
    # what is written though nothing changes: a shift by 0, a comparison that fails, a bit that is set; and what isn't
    for code in "c12300 d303 0fb10b 0fba2b00 830300 8703 0f4503 0fba2301".split():
        write(holding({READ_ONLY: 1}, 0x242, {RBX: READ_ONLY, RCX: 0x1700}), bytes.fromhex(code))
        write(Case(0x242, {RBX: ABSENT, RCX: 0x1700}), bytes.fromhex(code))


def fault_rows():
    for rows in (access_rows, moves_across_rows, edge_rows, stack_fault_rows, string_fault_rows, lock_rows, by_cpl_rows,
                 no_instruction_rows, order_rows):
        rows()
