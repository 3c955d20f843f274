"""Cases of page tables: what each level's entry refuses, WP, SMEP, accesses that cross pages, other roots."""
import itertools

import base
from base import A, D, FRAME, LINK, P, RBX, RCX, RDI, RSI, RSP, SLOT, U, W, XD
from rows import Case
from system import LEVELS, MIXED, case

WP, SMEP = 0x10000, 0x100000
# A page with tables of its own, by the frames 24 to 26, so that the code's page stays as it is.
TABLES, TARGET = (24, 25, 26), 27
PAGE = 1 << 39 | 2 << 30 | 3 << 21 | 4 << 12
INDICES = {4: 1, 3: 2, 2: 3, 1: 4}
LEAF = P | U | A | W | D


def mapped(found, entries):
    """Lays the tables of PAGE, where `entries` has by level what isn't a link that grants all, or a leaf that does."""
    for level, table, frame_below in zip((4, 3, 2, 1), (5, *TABLES), (*TABLES, TARGET)):
        bits = entries.get(level, LEAF if level == 1 else LINK)
        found.put_entry(table, INDICES[level], 0 if bits is None else frame_below * FRAME | bits)
    return found


def changes(level, leaf=LEAF):
    """What an entry of a level may be: nothing, one that isn't present, and one that grants less."""
    whole = leaf if level == 1 else LINK
    return [None, whole & ~P, whole & ~W, whole & ~U, whole | XD, whole & ~(W | U), whole & ~U | XD, whole]


# Instructions that read at RBX, write there, and do both; that pop and push at RSP; that move from RSI to RDI.
READS, WRITES = ["8b4310", "0fb64310", "ff6310", "3b4310"], ["894310", "c6431001", "f0014310", "0f944310"]
STACKS = ["50", "58", "e800000000", "c3", "9c", "9d", "6a12", "ff3425a0600100"]
STRINGS = ["a4", "48a5", "ab", "66ad", "ae", "f3a4", "a6"]


def levels():
    """Each level's entry at each access, where the other levels grant all."""
    for cpl, level in itertools.product(LEVELS, (4, 3, 2, 1)):
        for turn, bits in enumerate(changes(level)):
            for codes in (READS, WRITES):
                code = codes[(turn + level) % len(codes)]
                yield mapped(case(code, cpl, general={RBX: PAGE}), {level: bits})
            yield mapped(case(STACKS[(turn + level) % 8], cpl, general={RSP: PAGE + 0x100}), {level: bits})
            rsi, rdi = (PAGE, 0x11B00) if turn % 2 else (0x11A00, PAGE)
            general = {RSI: rsi, RDI: rdi, RCX: 2}
            yield mapped(case(STRINGS[(turn + 2 * level) % 7], cpl, general=general), {level: bits})
        for bits in changes(level, LEAF & ~U if cpl == 0 else LEAF & ~W):
            found = mapped(Case(level=cpl, rip=PAGE + 0x20), ({1: LEAF & ~U} if cpl == 0 else {}) | {level: bits})
            found.put(TARGET * FRAME + 0x20, bytes.fromhex("fcf8"))
            yield found


def two_levels():
    """Rights that two levels refuse, each another or the same."""
    pairs = itertools.combinations((4, 3, 2, 1), 2)
    for cpl, (first, second), bit in itertools.product(LEVELS, pairs, (W, U)):
        entries = {level: (LEAF if level == 1 else LINK) & ~bit for level in (first, second)}
        for code in ("8b03", "8903"):
            yield mapped(case(code, cpl, general={RBX: PAGE + 0x40}), entries)


def write_protection():
    """WP: writes of the supervisor to pages that can't be written, by what refuses; the user's aren't let through."""
    for cpl, level, protected in itertools.product(LEVELS, (4, 3, 2, 1), (True, False)):
        control = {} if protected else {"c0": base.CR0 & ~WP}
        for code, user in itertools.product(("8803", "8903", "488943f8", "f00103"), (U, 0)):
            entries = {1: LEAF & ~U | user}
            entries[level] = entries.get(level, LINK) & ~W
            yield mapped(case(code, cpl, general={RBX: PAGE + 0x80}, control=control), entries)
    for code, general in (("50", {RSP: PAGE + 0x80}), ("e810000000", {RSP: PAGE + 8}), ("9c", {RSP: PAGE + 0x88}),
                          ("aa", {RDI: PAGE}), ("48a5", {RDI: PAGE + 8}), ("0f9203", {RBX: PAGE}),
                          ("d103", {RBX: PAGE}), ("0fc103", {RBX: PAGE}), ("8703", {RBX: PAGE})):
        for cpl, user, protected in itertools.product(LEVELS, (U, 0), (True, False)):
            control = {} if protected else {"c0": base.CR0 & ~WP}
            yield mapped(case(code, cpl, general=general, control=control), {1: P | A | D | user})


def execution():
    """SMEP and XD: fetches at both CPLs from pages of each kind."""
    for cpl, smep, page, (_, bits) in ((cpl, smep, page, it) for cpl in LEVELS for smep in (True, False)
                                       for page, it in base.PAGES.items()):
        control = {} if smep else {"c4": base.CR4 & ~SMEP}
        for offset in (0, 0x7F0):
            found = Case(level=cpl, rip=page << 12 | offset, control=control)
            found.put_code(bytes.fromhex("f9f8"))
            yield found
    for cpl, smep, level in itertools.product(LEVELS, (True, False), (4, 3, 2, 1)):
        control = {} if smep else {"c4": base.CR4 & ~SMEP}
        whole = LEAF if level == 1 else LINK
        for bits in (whole & ~U, whole | XD, whole):
            found = mapped(Case(level=cpl, rip=PAGE + 0x30, control=control), {level: bits})
            found.put(TARGET * FRAME + 0x30, bytes.fromhex("fdf5"))
            yield found
    for cpl, address in itertools.product(LEVELS, (0x16000, 0x19000, 0x200000, 0x40000000, 0x8000000000, SLOT + 0x5000,
                                                   SLOT, SLOT + 0x3000, SLOT + 0x200000, 0xFFFF800000000000)):
        yield Case(level=cpl, rip=address)


# Instructions that access memory at RBX, with their widths; and with how many of their bytes are before a page's end.
WIDE = [("668b03", 16), ("8b03", 32), ("488b03", 64), ("668903", 16), ("8903", 32), ("488903", 64), ("480103", 64),
        ("ff33", 64), ("8f03", 64)]
SPLIT = [("01c8", 1), ("0501020304", 4), ("48b80102030405060708", 3), ("e810000000", 2), ("0f0b", 1), ("90", 1)]


def crossing():
    """Accesses across the end of a page, at each distance from it."""
    ends = (0x11000, 0x12000, 0x13000, 0x14000, 0x15000, 0x16000, 0x17000, 0x18000, 0x19000)
    for cpl, end in itertools.product(LEVELS, ends):
        for turn, (code, width) in enumerate(WIDE):
            address = end - (1 + turn * 3 % (width // 8 - 1) if width > 16 else 1)
            found = Case(level=cpl, general={RBX: address})
            found.put_number(address, MIXED, width)
            found.put_code(bytes.fromhex(code))
            yield found
        for turn, code in enumerate(("50", "58", "e810000000", "c3", "9c", "6650", "6658")):
            yield case(code, cpl, general={RSP: end + turn - (4 if code in ("58", "c3", "6658") else -1)})
    for cpl, page in itertools.product(LEVELS, (0x10, 0x11, 0x12, 0x13, 0x14, 0x15, 0x17, 0x18)):
        for code, inside in SPLIT:
            found = Case(level=cpl, rip=(page + 1 << 12) - inside)
            found.put_code(bytes.fromhex(code))
            yield found


def other_roots():
    """CR3 names another table, which leads to the same pages or to others."""
    for cpl, root in itertools.product(LEVELS, (28, 40, 63)):
        for code, bits in (("8b03", LINK), ("8903", LINK & ~W), ("0f0b", LINK), ("8b03", LINK & ~U)):
            found = case(code, cpl, general={RBX: 0x11100}, control={"c3": root * FRAME})
            found.put_entry(root, 0, 9 * FRAME | bits)
            found.put_entry(root, 511, 6 * FRAME | LINK)
            yield found


def slots():
    """The kernel slot's pages at both CPLs."""
    for cpl, page in itertools.product(LEVELS, range(6)):
        address = SLOT + (page << 12) + 0x40
        for code in ("8b03", "8903", "f00103"):
            if page or cpl:
                yield case(code, cpl, general={RBX: address})
        yield case("50", cpl, general={RSP: address})


def paging_cases():
    for cases in (levels, two_levels, write_protection, execution, crossing, other_roots, slots):
        yield from cases()
