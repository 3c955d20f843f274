"""The calls and their rules, and which answers a call can have (docs/MACHINE.md, 14.3)."""
from explain_form import Wrong
from explain_layout import LEAST_FRAMES, MOST_FRAMES, POOL

FIRST_REGION, MOST_BYTES = 256, 65536

# docs/MACHINE.md, 14.3. For calls 6 and 7 some rules mean what PAGES_MEANINGS and POOL_MEANINGS say.
CALL_RULES = {1: (27,), 2: (2, 3, 4, 5), 3: (2, 6, 7, 8, 9, 10, 11), 4: (2, 6, 12, 13), 5: (2, 14),
              6: (15, 16, 17, 18, 4, 5), 7: (15, 16, 17, 18), 8: (19, 20), 9: (19, 21, 22, 23, 24, 25, 26)}
RULES = {
    1: ("BadCall", "there is no call of this number"),
    2: ("BadFrame", "the frame isn't in memory"),
    3: ("BadLevel", "the level isn't 1 to 4"),
    4: ("NotData", "the frame's kind isn't Data"),
    5: ("StillLoose", "the frame has a leaf that is writable or user"),
    6: ("NotTable", "the frame is no page table"),
    7: ("BadIndex", "the index exceeds 511"),
    8: ("KernelSlot", "the table has level 4 and the index is 511"),
    9: ("BadBits", "the value is present, and its bits are out of form"),
    10: ("BadTarget", "the value is present and names a frame outside memory, a link to no table of the next lower "
                      "level, or a leaf of a hidden frame"),
    11: ("TooFree", "the value is a present leaf, and the kind of its frame forbids its rights"),
    12: ("StillLinked", "a link names the frame, or it is the root"),
    13: ("NotEmpty", "an entry of the table is present, other than entry 511 at level 4"),
    14: ("NotRoot", "the frame isn't a table of level 4"),
    15: ("BadRange", "the range isn't one of whole mapped pages of distinct frames, of at most 65536 bytes"),
    16: ("BadPolicy", "the policy isn't 1 to 4"),
    17: ("TooManyRegions", "256 regions are live"),
    18: ("NoRoom", "the declared pages would exceed 128 in all"),
    19: ("BadRegion", "no live region has the identifier"),
    20: ("NotAllocated", "the region was declared"),
    21: ("OutOfBounds", "the length is 0, or offset and length pass the region's size"),
    22: ("BadSource", "a byte of the source can't be read"),
    23: ("NoWrite", "the policy is 3, no-write"),
    24: ("WrittenOnce", "the policy is 1, write-once, and a byte of the range was written before"),
    25: ("NotAtEnd", "the policy is 2, append-only, and the offset isn't the tail"),
    26: ("LogFull", "the policy is 4, write-log, and 24 and the length exceed what is left of the log"),
    27: ("NotCanonical", "the address isn't canonical"),
}
PAGES_MEANINGS = {4: "the kind of one of the frames isn't Data",
                  5: "one of the frames has a leaf that is writable or user"}
POOL_MEANINGS = {15: "the size is 0 or exceeds 65536", 18: "no place in the pool fits"}


def is_accepted(number, answer):
    return answer >= FIRST_REGION if number in (6, 7) else answer == 0 and number in CALL_RULES


def refused_words(number, answer):
    name, meaning = RULES[answer]
    own = {6: PAGES_MEANINGS, 7: POOL_MEANINGS}.get(number, {})
    return f"refused by rule {answer}, {name}: {own.get(answer, meaning)}"


def check_answer(number, answer, place):
    """A call is answered by one of its own rules, or as an accepted one; a place comes with an allocation alone."""
    is_good = is_accepted(number, answer)
    if not is_good and answer not in CALL_RULES.get(number, (1,)):
        raise Wrong(f"no run writes this: call {number:x} is never answered with {answer}")
    if (place != "-") != (number == 7 and is_good):
        raise Wrong("no run writes this: PLACE has 16 digits exactly where call 7 was accepted")


def is_canonical(address):
    return address < 1 << 47 or (1 << 64) - (1 << 47) <= address < 1 << 64


def frame_rule(frame):
    """Whether no memory has the frame, or each has it; None where it goes by FRAMES."""
    return True if frame >= MOST_FRAMES else False if frame < LEAST_FRAMES else None


def bits_rule(value):
    """Whether a present value's bits have neither the form of a link nor that of a leaf; None where they have one."""
    if not value & 1:
        return False
    is_link = value & 0x27 == 0x27 and not value & (0xFFF << 52 | 0x198)
    is_leaf = value & 0x21 == 0x21 and not value & (0x7FF << 52 | 0x198) and value & 0x42 != 2
    return False if is_link and is_leaf else None if is_link or is_leaf else True


def target_rule(value):
    if not value & 1:
        return False
    return True if value >> 12 & (1 << 40) - 1 >= MOST_FRAMES else None


def range_rule(start, size):
    is_bad = start % 4096 or not 0 < size <= MOST_BYTES or size % 4096
    return True if is_bad or not is_canonical(start) or not is_canonical(start + size - 1) else None


# Whether a call's arguments a to d break a rule: True, False, or None where they alone don't tell (docs/MACHINE.md,
# 14.3).
BROKEN = {
    (1, 27): lambda a, b, c, d: not is_canonical(a),
    (2, 2): lambda a, b, c, d: frame_rule(b),
    (2, 3): lambda a, b, c, d: not 1 <= a <= 4,
    (3, 2): lambda a, b, c, d: frame_rule(a),
    (3, 7): lambda a, b, c, d: b > 511,
    (3, 8): lambda a, b, c, d: None if b == 511 else False,
    (3, 9): lambda a, b, c, d: bits_rule(c),
    (3, 10): lambda a, b, c, d: target_rule(c),
    (3, 11): lambda a, b, c, d: None if c & 1 else False,
    (4, 2): lambda a, b, c, d: frame_rule(a),
    (5, 2): lambda a, b, c, d: frame_rule(a),
    (6, 15): lambda a, b, c, d: range_rule(a, b),
    (6, 16): lambda a, b, c, d: not 1 <= c <= 4,
    (7, 15): lambda a, b, c, d: not 0 < a <= MOST_BYTES,
    (7, 16): lambda a, b, c, d: not 1 <= b <= 4,
    (8, 19): lambda a, b, c, d: True if a < FIRST_REGION else None,
    (9, 19): lambda a, b, c, d: True if a < FIRST_REGION else None,
    (9, 21): lambda a, b, c, d: True if d == 0 or b + d > MOST_BYTES else None,
}


def check_arguments(number, answer, arguments):
    """The answer is the first rule that the call breaks, as far as the arguments tell."""
    for rule in CALL_RULES.get(number, ()):
        is_broken = BROKEN.get((number, rule), lambda *_: None)(*arguments)
        if rule == answer:
            if is_broken is False:
                raise Wrong(f"no run writes this: call {number:x} with these arguments doesn't break rule {rule}")
            return
        if is_broken:
            raise Wrong(f"no run writes this: call {number:x} with these arguments breaks rule {rule}, "
                        f"{RULES[rule][0]}")


def check_place(place, size):
    """A region that was allocated lies in the pool, at a multiple of 16."""
    if place % 16 or not POOL <= place <= POOL + MOST_BYTES - size:
        raise Wrong("no run writes this: PLACE is no multiple of 16 in the pool with room behind it")


def check_source(number, answer, length, source):
    """A write alone takes a source: unless its region doesn't live or its range is out of bounds."""
    wanted = "-" if number != 9 or answer in (19, 21) else "!" if answer == 22 else None
    if wanted and source != wanted:
        raise Wrong(f"no run writes this: SRC is {wanted} for call {number:x} with the answer {answer}")
    if not wanted and (source in "-!" or len(source) != 2 * length):
        raise Wrong(f"no run writes this: SRC has as many bytes as argument d says, {length}")
