"""Values of operands, and the flags that the manual leaves undefined behind an operation (SDM volume 2)."""
import itertools

CF, PF, AF, ZF, SF, DF, OF = 0x1, 0x4, 0x10, 0x40, 0x80, 0x400, 0x800
STATUS = CF | PF | AF | ZF | SF | OF
FLAGS = [0x202, 0x202 | STATUS, 0x203, 0x202 | STATUS & ~CF, 0x642, 0x202 | SF | OF]

MIXED, OTHER = 0x9C3A57E184D26B2F, 0x5A17C0DE337791E4


def cut(width, value):
    return value % 2 ** width


def edges(width):
    """Zero, one, all ones, the sign bit, all below it, and two with mixed bits."""
    ones, sign = 2 ** width - 1, 2 ** (width - 1)
    return [0, 1, ones, sign, sign - 1, cut(width, MIXED), cut(width, OTHER)]


def pairs(width):
    """Pairs that carry, borrow, overflow, cancel and cross bit 3."""
    zero, one, ones, sign, below, mixed, other = edges(width)
    return [(one, ones), (mixed, other), (below, one), (sign, sign), (zero, one), (other, mixed), (zero, zero),
            (sign, one), (0x0F, one), (mixed, mixed), (ones, ones), (one, sign), (ones, mixed), (0x10, 0x0F)]


def numbers(width):
    """Numbers that are extended by their sign, and not."""
    return [0, 1, 0x7F, 2 ** width - 1, 2 ** width - 0x80, 2 ** (width - 1), cut(width, MIXED), 0x12]


def counts(width):
    """Counts of shifts: those of each mask and those at the width."""
    found = [0, 1, 7, width - 1, width, width + 1, 31, 63, 0x20, 0x41, 0xFF]
    return list(dict.fromkeys(found))


def products(width):
    """Accumulator and factor."""
    zero, one, ones, sign, below, mixed, other = edges(width)
    return [(mixed, other), (ones, ones), (sign, one), (below, 2), (zero, mixed), (sign, ones), (3, 5)]


def halves(width, dividend):
    return cut(width, dividend >> width), cut(width, dividend)


def quotients(width, signed):
    """The dividend's upper and lower half, and the divisor: quotients that fit, just fit, don't, and by zero."""
    ones, sign, mixed, other = 2 ** width - 1, 2 ** (width - 1), cut(width, MIXED), cut(width, OTHER)
    whole = 2 ** width
    unsigned = [(mixed, 7), (whole * (other - 1) + ones, other), (whole + 5, 3), (ones, 1), (whole + 5, 1),
                (whole * other, other), (mixed, 0), (0, 0)]
    both_signs = [(-7, 2), (7, -2), (-sign, 1), (-7, -2), (-3 * sign - 2, 3), (3 * sign - 1, 3), (-sign, -1), (sign, 1),
                  (whole, 2), (mixed, 0), (whole * (sign - 1) + 1, ones)]
    chosen = both_signs if signed else unsigned
    return [(*halves(width, dividend), cut(width, divisor)) for dividend, divisor in chosen]


def masked(width, count):
    return count & (63 if width == 64 else 31)


def undefined_by_shift(name, width, count):
    n = masked(width, count)
    if n == 0:
        return 0
    wide = OF if n != 1 else 0
    if name in ("ROL", "ROR"):
        return wide
    return AF | wide | (CF if name != "SAR" and n >= width else 0)


UNDEFINED = {
    "AND": AF, "OR": AF, "XOR": AF, "TEST": AF,
    "MUL": SF | ZF | AF | PF, "IMUL": SF | ZF | AF | PF,
    "DIV": STATUS, "IDIV": STATUS,
    "BT": OF | SF | AF | PF, "BTS": OF | SF | AF | PF, "BTR": OF | SF | AF | PF, "BTC": OF | SF | AF | PF,
    "BSF": CF | OF | SF | AF | PF, "BSR": CF | OF | SF | AF | PF,
}

# The flags that each pair of conditions, the even one and its negation, looks at (SDM volume 1, appendix B).
LOOKED_AT = [[OF], [CF], [ZF], [CF, ZF], [SF], [PF], [SF, OF], [ZF, SF, OF]]


def condition_flags(condition):
    """RFLAGS at which the condition stands and doesn't: each setting of the flags that it looks at, over others that
    are all clear and all set in turn."""
    looked_at = LOOKED_AT[condition // 2]
    noise = STATUS & ~sum(looked_at)
    for number, chosen in enumerate(itertools.product((0, 1), repeat=len(looked_at))):
        own = sum(flag for flag, is_set in zip(looked_at, chosen) if is_set)
        yield 0x202 | own | (noise if number % 2 else 0)
