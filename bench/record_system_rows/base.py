"""The memory and the registers that every row begins with, after docs/MACHINE.md, 4.1 and 12.1."""

FRAME, FRAMES = 0x1000, 64
RAX, RCX, RDX, RBX, RSP, RBP, RSI, RDI = range(8)

# The kernel slot, where the descriptor table begins, and its parts.
SLOT = 0xFFFFFF8000000000
TASK_STATE, DESCRIPTORS, TEXT, TRAP_STACK = SLOT + 0x400, SLOT + 0x800, SLOT + 0x1000, SLOT + 0x4000
GATES, FROM_USER = 48, (3, 4, 47)

ROOT, FLAGS, CR0, CR4, EFER = 0x5000, 2, 0x80010001, 0x100020, 0xD00
# By CPL: where the instruction stands, its place in memory, SS and CS.
START, CODE_PLACE, STACK, CODE = ({0: 0x13000, 3: 0x10000}, {0: 0x14000, 3: 0x10000}, {0: 0x10, 3: 0x23},
                                  {0: 8, 3: 0x1B})

GENERAL = [0x0706050403020100 + 0x1010101010101010 * number for number in range(16)]
GENERAL[RBX], GENERAL[RSP], GENERAL[RBP], GENERAL[RSI], GENERAL[RDI] = 0x11100, 0x11800, 0x11900, 0x11A00, 0x11B00

# Bits of an entry: present, writable, user, accessed, dirty, no execution.
P, W, U, A, D, XD = 1, 2, 4, 0x20, 0x40, 2 ** 63
LINK = P | W | U | A
# The linear pages below 2 MiB, each with its frame and its rights.
PAGES = {
    0x10: (16, P | U | A),
    0x11: (17, P | U | A | W | D | XD),
    0x12: (18, P | U | A | XD),
    0x13: (20, P | A),
    0x14: (21, P | A | W | D | XD),
    0x15: (19, P | A | XD),
    0x17: (22, P | U | A | W | D),
    0x18: (23, P | A | W | D),
}
TABLES = {
    5: {0: 9 * FRAME | LINK, 511: 6 * FRAME | LINK},
    6: {0: 7 * FRAME | LINK},
    7: {0: 8 * FRAME | LINK},
    8: {0: P | A | XD, 1: FRAME | P | A, 2: 2 * FRAME | P | A | XD, 3: 3 * FRAME | P | A | W | D | XD,
        4: 4 * FRAME | P | A | XD},
    9: {0: 10 * FRAME | LINK},
    10: {0: 11 * FRAME | LINK},
    11: {page: frame * FRAME | bits for page, (frame, bits) in PAGES.items()},
}


def gate(offset, level=0, present=True, selector=8, stack=1, kind=0xE):
    """An interrupt gate of 64-bit mode (SDM volume 3, 6.14.1); `level` is its DPL."""
    low = (offset & 0xFFFF).to_bytes(2, "little") + selector.to_bytes(2, "little")
    return low + bytes([stack, present << 7 | level << 5 | kind]) + (offset >> 16).to_bytes(6, "little") + bytes(4)


def descriptors():
    """What no row looks at: a processor reads CS, SS and the task-state segment's place from here. The segment ends
    behind IST1: one of 104 bytes would have a map of ports in its zeros, which opens them at CPL 3."""
    flat = [0, 0x00AF9B000000FFFF, 0x00CF93000000FFFF, 0x00AFFB000000FFFF, 0x00CFF3000000FFFF]
    low, high = TASK_STATE & 0xFFFFFFFF, TASK_STATE >> 32
    segment = 0x2B | (low & 0xFFFFFF) << 16 | 0x89 << 40 | (low >> 24) << 56
    return b"".join(number.to_bytes(8, "little") for number in flat + [segment, high])


def memory():
    """All frames of a row."""
    found = bytearray(FRAME * FRAMES)
    for vector in range(GATES):
        found[16 * vector:16 * vector + 16] = gate(TEXT + 64 + 8 * vector, 3 if vector in FROM_USER else 0)
    found[0x424:0x42C] = TRAP_STACK.to_bytes(8, "little")
    for frame, entries in TABLES.items():
        for index, entry in entries.items():
            place = FRAME * frame + 8 * index
            found[place:place + 8] = entry.to_bytes(8, "little")
    return found
