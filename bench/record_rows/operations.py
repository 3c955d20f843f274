"""Cases of arithmetic, bits and moves: each row of the table of opcodes at each of its widths, by values."""
from encoding import (BASE, RAX, RBP, RCX, RDX, RSI, RSP, R8, R9, R12, R13, R15, Case, Memory, Register, byte, encode,
                      high, write)
from table import BESIDE, LINES, MODES, TURNS, places_of, widths_of, write_row
from values import (FLAGS, MIXED, OTHER, UNDEFINED, condition_flags, counts, cut, edges, numbers, pairs, products,
                    quotients, undefined_by_shift)


def low(number, width, value):
    """What a register holds without a case, with other low bits."""
    return number, BASE[number] >> width << width | value


def places_without(taken, line, width, in_memory):
    """Operands of which none is one of those registers."""
    while True:
        places = places_of(line, width, in_memory)
        if not any(it in taken for it in places.values()):
            return places


def arithmetic_rows(escape, line, width):
    has_place = line.operands[0][0] == "E" or line.operands[1][0] == "E"
    has_number = line.operands[1][0] == "I"
    registers, memories = (2, 1) if has_number else (3, 2)
    for in_memory in [False] * registers + [True] * memories if has_place else [False] * 2:
        first, second = TURNS.next((line.name, width), pairs(width))
        if has_number:
            second = TURNS.next((line.name, width, "number"), numbers(width))
        places = places_of(line, width, in_memory) if has_place else {}
        write_row(escape, line, width, places, (first, second), UNDEFINED.get(line.name, 0))


def shift_rows(escape, line, width):
    form = line.operands[1]
    chosen = {"1": [1, 1, 1], "Ub": counts(width), "CL": counts(width)[::2] + [31]}[form]
    taken = (Register(RCX), byte(RCX), high(RCX)) if form == "CL" else ()
    for turn, count in enumerate(chosen):
        value = TURNS.next((line.name, width), edges(width)[:0:-1])
        places = places_without(taken, line, width, turn in ((2,) if form == "1" else (4, 8)))
        write_row(escape, line, width, places, (value, count), undefined_by_shift(line.name, width, count))


def unary_rows(escape, line, width):
    values = edges(width)
    for turn, value in enumerate(values + [values[2], values[3]]):
        write_row(escape, line, width, places_of(line, width, turn >= len(values)), (value,))


def product_rows(escape, line, width):
    """MUL, and IMUL of one operand, of two, and of two and a number."""
    for turn, (first, second) in enumerate(products(width)):
        if len(line.operands) == 1:
            places = places_without((Register(RAX), byte(RAX), high(RAX)), line, width, turn in (1, 5))
            write_row(escape, line, width, places, (second,), UNDEFINED[line.name], before=[low(RAX, width, first)])
        elif turn < 5:
            third = TURNS.next((line.name, width, line.operands[-1]), numbers(width))
            places = places_of(line, width, turn in (1, 3))
            write_row(escape, line, width, places, (first, second, third), UNDEFINED[line.name])


def quotient_rows(escape, line, width):
    taken = [make(number) for make in (Register, byte) for number in (RAX, RDX)] + [high(RAX)]
    for turn, (upper, lower, divisor) in enumerate(quotients(width, line.name == "IDIV")):
        places = places_without(taken, line, width, turn in (1, 6))
        before = [low(RAX, 16, upper << 8 | lower)] if width == 8 else [low(RAX, width, lower), low(RDX, width, upper)]
        write_row(escape, line, width, places, (divisor,), UNDEFINED[line.name], before=before)


def move_rows(escape, line, width):
    if line.operands[0][0] == "Z":
        registers = [byte(number) for number in range(16)] + [high(number) for number in range(4)]
        for register in registers if width == 8 else map(Register, range(16)):
            value = TURNS.next(("MOV", width), edges(width))
            write_row(escape, line, width, {"Z": register}, (cut(width, ~value), value))
        return
    for turn, value in enumerate(edges(width)[-1:2:-1]):
        write_row(escape, line, width, places_of(line, width, turn in (1, 2)), (cut(width, ~value), value))


def extension_rows(escape, line, width):
    bits = {"Eb": 8, "Ew": 16, "Ev": 32}[line.operands[1]]
    for turn, value in enumerate(edges(bits)[2:]):
        write_row(escape, line, width, places_of(line, width, turn in (1, 4)), (0, value))


def exchange_rows(escape, line, width):
    """XCHG and XADD; the last row has one register twice."""
    if line.operands[1] == "Zv":
        chosen = {16: (RCX, RSP, R8, R13), 32: (RDX, RBP, R9, 14), 64: (3, RSI, 7, 10, 11, R12, R15)}[width]
        for number in chosen if line.first == 0x91 else (R8,):
            row = line._replace(first=0x90)
            write_row(escape, row, width, {"Z": Register(number)}, TURNS.next("XCHG short", pairs(width)[:4]))
        return
    for turn in range(5):
        places = places_of(line, width, turn in (1, 3))
        if turn == 4:
            places["G"] = places["E"]
        write_row(escape, line, width, places, TURNS.next((line.name, width), pairs(width)))


def compare_exchange_rows(escape, line, width):
    """Equal and not, in registers and in memory, and a register twice; but no 32-bit register that isn't equal."""
    taken = (Register(RAX), byte(RAX), high(RAX))
    for turn, values in enumerate([(5, 5, 9), (5, 6, 9), (MIXED, MIXED, OTHER), (OTHER, MIXED, 1),
                                   (0, 2 ** (width - 1), 7), (OTHER, MIXED, MIXED), (MIXED, MIXED, MIXED)]):
        accumulator, held, other = (cut(width, value) for value in values)
        in_memory = turn in (2, 3)
        if width == 32 and not in_memory and accumulator != held:
            continue
        places = places_without(taken, line, width, in_memory)
        if turn > 4:
            places["G"] = places["E"]
        write_row(escape, line, width, places, (held, other), before=[low(RAX, width, accumulator)])


def bit_rows(escape, line, width):
    for turn, bit in enumerate([0, width - 1, 3, width + 5, 0xFF, 2 ** width - 1]):
        in_memory = line.operands[0] == "Ev" and turn in (1, 3)
        value = TURNS.next((line.name, width), edges(width)[2:])
        write_row(escape, line, width, places_of(line, width, in_memory), (value, bit), UNDEFINED[line.name])


def scan_rows(escape, line, width):
    """For 0 the register keeps what it held, on this processor as by the definition; the manual says nothing of it."""
    for turn, value in enumerate(edges(width) + [2 ** (width // 2), 0]):
        write_row(escape, line, width, places_of(line, width, turn in (3, 8)), (MIXED, value), UNDEFINED[line.name])


def reverse_rows(escape, line, width):
    for number in range(16):
        write_row(escape, line, width, {"Z": Register(number)}, (TURNS.next("BSWAP", [MIXED, OTHER]),))


ADDRESSES = [
    Memory(base=RAX, index=RAX),
    Memory(base=RCX, index=R15, scale=2, disp=0x7F, size=1),
    Memory(base=R13, index=RBP, scale=8, disp=-0x80, size=1),
    Memory(base=RBP, index=R12, scale=4, disp=-0x80000000, size=4),
    Memory(index=RDX, scale=4, disp=0x7FFFFFFF),
    Memory(disp=-0x10),
    Memory(base=R15, disp=0x7FFFFFFF, size=4, general={R15: 2 ** 64 - 1}),
    Memory(base=R8, index=R9, scale=8, general={R8: 2 ** 63, R9: 2 ** 61 + 3}),
]


def address_rows(_escape, _line, width):
    for mode in ADDRESSES + MODES[width // 32::3]:
        write(Case(general=mode.general), encode(b"\x8d", width, TURNS.next("beside", BESIDE), mode))


def conditional_rows(escape, line, width):
    """SETcc and CMOVcc, each condition at each setting of its flags."""
    for condition in range(16):
        for turn, flags in enumerate(condition_flags(condition)):
            if line.name == "CMOVcc" and (condition + turn) % 3 != width // 32:
                continue
            in_memory = TURNS.next(line.name, [False, False, True, False, True])
            row = line._replace(first=line.first + condition)
            write_row(escape, row, width, places_of(line, width, in_memory), (MIXED, OTHER), flags=flags)


def accumulator_rows(_escape, line, width):
    """98 and 99."""
    for value in edges(width)[3:] + [0x80, 0x8000, 0x80000000]:
        case = Case(TURNS.next("flags", FLAGS))
        case.put(Register(RAX), width, cut(width, value))
        write(case, encode(bytes([line.first]), width))


ROWS = {
    "ADD OR ADC SBB AND SUB XOR CMP TEST": arithmetic_rows,
    "ROL ROR SHL SHR SAR": shift_rows,
    "NOT NEG INC DEC": unary_rows,
    "MUL IMUL": product_rows,
    "DIV IDIV": quotient_rows,
    "BT BTS BTR BTC": bit_rows,
    "BSF BSR": scan_rows,
    "MOV": move_rows,
    "MOVZX MOVSX MOVSXD": extension_rows,
    "LEA": address_rows,
    "XCHG XADD": exchange_rows,
    "CMPXCHG": compare_exchange_rows,
    "BSWAP": reverse_rows,
    "SETcc CMOVcc": conditional_rows,
    "CBW CWDE CDQE CWD CDQ CQO": accumulator_rows,
}


def value_rows():
    by_name = {name: rows for names, rows in ROWS.items() for name in names.split()}
    for escape, line in LINES:
        if line.name in by_name:
            for width in widths_of(line):
                by_name[line.name](escape, line, width)
