"""Trials of tools/explain, typed by hand as those of tools/explain_test, which runs them: the pages that entries stand
for, lines that no run writes, files that want bounds, and what goes wrong outside."""
import pathlib
import resource
import struct
import subprocess
import sys
import tempfile

from explain_trial import OUTER, TOP, USAGE, compare, explain, made_image, place_rows, told, try_rows

# ---- for which pages an entry stands

LOW, HIGH = "addresses 0 to 7fffffffff below root", "addresses ffff800000000000 to ffff807fffffffff below root 100"
LINK, NONE = "bits P R/W U/S A: accepted", "0, not present: accepted"
ENTRIES = (
    # A table of level 4 in frame 100, and below it levels 3 to 1 in 101, 102 and 103. A link is 27, a frame 1000.
    *((f"k 2 {level} {frame:x} 0 0 - 0 -", f"declare a table of level {level} in frame {frame}: accepted")
      for level, frame in ((4, 100), (3, 101), (2, 102), (1, 103))),
    ("k 3 66 2 67027 0 - 0 -", f"write entry 2 of the level 2 table in frame 102, below no root: 67027, "
     f"a link to frame 103, {LINK}"),
    ("k 3 65 0 66027 0 - 0 -", f"write entry 0 of the level 3 table in frame 101, below no root: 66027, "
     f"a link to frame 102, {LINK}"),
    ("k 3 67 2 0 0 - 0 -", f"write entry 2 of the level 1 table in frame 103, below no root: {NONE}"),
    ("k 3 64 0 65027 0 - 0 -", f"write entry 0 of the level 4 table in frame 100, {LOW} 100: 65027, "
     f"a link to frame 101, {LINK}"),
    ("k 3 67 2 8000000000068067 0 - 0 -", "write entry 2 of the level 1 table in frame 103, page 402000 "
     "below root 100: 8000000000068067, a leaf of frame 104, bits P R/W U/S A D XD, so rw-u: accepted"),
    ("k 3 67 2 68027 0 - 9 -", "write entry 2 of the level 1 table in frame 103, page 402000 below root 100: "
     "68027, a leaf of frame 104, bits P R/W U/S A, so rwxu: refused by rule 9, BadBits: the value is present, and its "
     "bits are out of form"),
    ("k 3 66 3 67027 0 - 0 -", "write entry 3 of the level 2 table in frame 102, addresses 600000 to 7fffff "
     f"below root 100: 67027, a link to frame 103, {LINK}"),
    ("k 3 67 2 0 0 - 0 -", "write entry 2 of the level 1 table in frame 103, page 402000 below root 100, "
     f"page 602000 below root 100: {NONE}"),
    ("k 3 5 0 65027 0 - 0 -", f"write entry 0 of the level 4 table in frame 5 (opening root), {LOW} 5: 65027, "
     f"a link to frame 101, {LINK}"),
    ("k 3 67 1ff 0 0 - 0 -", "write entry 511 of the level 1 table in frame 103, page 5ff000 below roots 5 and 100, "
     f"page 7ff000 below root 5 and 1 more: {NONE}"),
    ("k 3 67 200 0 0 - 7 -", "write entry 512 of the level 1 table in frame 103: 0, not present: "
     "refused by rule 7, BadIndex: the index exceeds 511"),
    ("k 3 64 100 65027 0 - 0 -", f"write entry 256 of the level 4 table in frame 100, {HIGH}: 65027, "
     f"a link to frame 101, {LINK}"),
    ("k 3 67 0 0 0 - 0 -", "write entry 0 of the level 1 table in frame 103, page 400000 below roots 5 and 100, "
     f"page 600000 below root 5 and 3 more: {NONE}"),
    ("k 3 64 0 0 0 - 0 -", f"write entry 0 of the level 4 table in frame 100, {LOW} 100: {NONE}"),
    ("k 3 5 0 0 0 - 0 -", f"write entry 0 of the level 4 table in frame 5 (opening root), {LOW} 5: {NONE}"),
    ("k 3 66 3 0 0 - 0 -", "write entry 3 of the level 2 table in frame 102, addresses ffff800000600000 to "
     f"ffff8000007fffff below root 100: {NONE}"),
    ("k 3 67 0 0 0 - 0 -", "write entry 0 of the level 1 table in frame 103, page ffff800000400000 below root 100: "
     f"{NONE}"),
    ("k 3 65 1ff 0 0 - 0 -", "write entry 511 of the level 3 table in frame 101, addresses ffff807fc0000000 to "
     f"ffff807fffffffff below root 100: {NONE}"),
    # Frame 71 was no table of the text's. That the link is admitted tells its level, but not what leads to it.
    ("k 3 47 5 67027 0 - 0 -", "write entry 5 of the table in frame 71: 67027, frame 103, bits P R/W U/S A: accepted"),
    ("k 3 47 6 0 0 - 0 -", f"write entry 6 of the level 2 table in frame 71: {NONE}"),
    ("k 3 67 0 0 0 - 0 -", "write entry 0 of the level 1 table in frame 103, at least page ffff800000400000 "
     f"below root 100: {NONE}"),
    ("k 3 64 100 0 0 - 0 -", f"write entry 256 of the level 4 table in frame 100, {HIGH}: {NONE}"),
    ("k 3 67 0 0 0 - 0 -", f"write entry 0 of the level 1 table in frame 103: {NONE}"),
    ("k 4 64 0 0 0 - 0 -", "remove the table in frame 100: accepted"),
    ("k 3 64 0 0 0 - 6 -", "write entry 0 of the table in frame 100: 0, not present: refused by rule 6, NotTable: "
     "the frame is no page table"),
)

# In 512 frames 75 to 77 have the direct map's tables (docs/MACHINE.md, 3), which 512 leaves fill.
DIRECT = (
    ("k 3 4b 0 4c027 0 - 0 -", "write entry 0 of the level 3 table in frame 75, addresses ffff800000000000 to "
     f"ffff80003fffffff below root 5: 4c027, a link to frame 76, {LINK}"),
    ("k 3 4c 1 0 0 - 0 -", "write entry 1 of the level 2 table in frame 76, addresses ffff800000200000 to "
     f"ffff8000003fffff below root 5: {NONE}"),
    ("k 3 4d 1ff 0 0 - 0 -", "write entry 511 of the level 1 table in frame 77, page ffff8000001ff000 below root 5: "
     f"{NONE}"),
    ("k 3 5 100 0 0 - 0 -", "write entry 256 of the level 4 table in frame 5 (opening root), addresses "
     f"ffff800000000000 to ffff807fffffffff below root 5: {NONE}"),
    ("k 3 4d 1ff 0 0 - 0 -", f"write entry 511 of the level 1 table in frame 77, below no root: {NONE}"),
)


def called(rows):
    return [(line, f"call {line[2]}, {said}") for line, said in rows]


def try_entries():
    try_rows(called(ENTRIES), wanted_status=0)
    try_rows(called(DIRECT), words=("--frames", "512"))
    try_rows([("t 5 0 0000000000000000", f"entry 0 of the level 4 table in frame 5 (opening root), {LOW} 5, is now "
               "0000000000000000, not present"),
              ("t 100 0 0000000000000000", "entry 0 of the table in frame 100 is now 0000000000000000, not present")])
    # A table that is linked at 512 places, and at twice as many, of which not all are counted.
    made = "k 2 4 64 0 0 - 0 -\nk 2 3 65 0 0 - 0 -\nk 2 2 66 0 0 - 0 -\nk 2 1 67 0 0 - 0 -\nk 3 64 0 65027 0 - 0 -\n"
    made += "k 3 65 0 66027 0 - 0 -\n" + "".join(f"k 3 66 {it:x} 67027 0 - 0 -\n" for it in range(512))
    leaf, start = "k 3 67 1 0 0 - 0 -\n", "call 3, write entry 1 of the level 1 table in frame 103, page 1000 below"
    for text, wanted in (
            ("", " root 100, page 201000 below root 100, page 401000 below root 100 and 509 more"),
            ("k 3 65 1 66027 0 - 0 -\n", "and more"), ("k 3 5 0 65027 0 - 0 -\n", "and more")):
        said = told((made + text + leaf).encode())[1][-1]
        compare(f"many places {text}", (True, True), (start in said, said.endswith(f"{wanted}: {NONE}")))


# ---- lines that no run writes

NEVER = "no run writes this:"
BREAKS, KEEPS = "with these arguments breaks rule", "with these arguments doesn't break rule"
FRAME = "and a memory has at most 65536 frames"
ROOM = f"{NEVER} PLACE is no multiple of 16 in the pool with room behind it"
SIZES = f"{NEVER} regions have numbers from 256 on and at most 65536 bytes"
STRANGE = (
    *((f"k {words}", f"{NEVER} call {words[0]} {BREAKS} {rule}") for words, rule in (
        ("1 800000000000 0 0 0 - 0 -", "27, NotCanonical"), ("2 1 10000 0 0 - 0 -", "2, BadFrame"),
        ("2 0 64 0 0 - 0 -", "3, BadLevel"), ("2 5 64 0 0 - 4 -", "3, BadLevel"),
        ("3 10000 0 0 0 - 0 -", "2, BadFrame"), ("3 64 200 0 0 - 0 -", "7, BadIndex"),
        ("3 64 0 1 0 - 0 -", "9, BadBits"), ("3 64 0 64121 0 - 10 -", "9, BadBits"),
        ("3 64 0 64023 0 - 0 -", "9, BadBits"), ("3 64 0 10000021 0 - 0 -", "10, BadTarget"),
        ("4 10000 0 0 0 - 12 -", "2, BadFrame"), ("5 10000 0 0 0 - 0 -", "2, BadFrame"),
        ("6 5001 1000 1 0 - 256 -", "15, BadRange"), ("6 5000 11000 1 0 - 256 -", "15, BadRange"),
        ("6 7ffffffff000 2000 1 0 - 256 -", "15, BadRange"), ("6 5000 1000 0 0 - 256 -", "16, BadPolicy"),
        ("6 5000 0 1 0 - 4 -", "15, BadRange"), ("7 0 1 0 0 - 256 ffffff8000010000", "15, BadRange"),
        ("7 10001 1 0 0 - 18 -", "15, BadRange"), ("7 1 5 0 0 - 256 ffffff8000010000", "16, BadPolicy"),
        ("8 ff 0 0 0 - 0 -", "19, BadRegion"), ("9 ff 0 7000 1 00 0 -", "19, BadRegion"),
        ("9 100 0 7000 0 ! 22 -", "21, OutOfBounds"), ("9 100 ffff 7000 2 0000 0 -", "21, OutOfBounds"))),
    *((f"k {words}", f"{NEVER} call {words[0]} {KEEPS} {rule}") for words, rule in (
        ("1 ffff800000000000 0 0 0 - 27 -", 27), ("2 1 1ff 0 0 - 2 -", 2), ("2 4 64 0 0 - 3 -", 3),
        ("3 64 1ff 0 0 - 7 -", 7), ("3 64 1fe 0 0 - 8 -", 8), ("3 64 0 0 0 - 9 -", 9), ("3 64 0 64067 0 - 9 -", 9),
        ("3 64 0 64020 0 - 10 -", 10), ("3 64 0 0 0 - 11 -", 11), ("6 5000 1000 4 0 - 16 -", 16),
        ("7 10000 1 0 0 - 15 -", 15), ("7 1 4 0 0 - 16 -", 16))),
    ("k 7 10 1 0 0 - 256 ffffff8000010008", ROOM), ("k 7 11 1 0 0 - 256 ffffff800001fff0", ROOM),
    ("k 7 1 1 0 0 - 256 ffffff8000000000", ROOM),
    ("k 7 10 1 0 0 - 300 ffffff800001fff0", "call 7, allocate 16 bytes, write-once: accepted, region 300 at "
     "ffffff800001fff0 (pool, byte 65520)"),
    ("k 7 10 1 0 0 - 302 ffffff8000010000", f"{NEVER} behind 300 comes the next one"),
    ("k 6 5000 1000 1 0 - 300 -", f"{NEVER} behind 300 comes the next one"),
    ("turns 4294967297", f"{NEVER} N is 4294967297, and STEPS is at most 4294967296"),
    ("root 65536", f"{NEVER} FRAME is 65536, {FRAME}"),
    ("f 18446744073709551615 table4", f"{NEVER} FRAME is 18446744073709551615, {FRAME}"),
    ("f 65535 data", "frame 65535 is now data"),
    ("f 65535 data", f"{NEVER} behind 65535 comes a greater one"),
    ("t 65536 0 0000000000000000", f"{NEVER} FRAME is 65536, {FRAME}"),
    ("t 90 7 0000000000000000", "entry 7 of the table in frame 90 is now 0000000000000000, not present"),
    ("t 90 6 0000000000000000", f"{NEVER} behind 90 7 comes a greater one"),
    ("r 255 1 ffffff8000010000 1 00", SIZES),
    ("r 300 1 ffffff8000010000 65537 " + "00" * 65537, SIZES),
    ("r 300 1 ffffff8000010000 1 00", "region 300, write-once, at ffffff8000010000 (pool, byte 0) has 1 byte, 00"),
    ("r 300 1 ffffff8000010000 1 00", f"{NEVER} behind 300 comes a greater one"),
    ("l 0 255 0 00", SIZES), ("l 0 300 65536 00", SIZES),
    ("l 0 300 65535 00", "record 0 of the log: in region 300 from offset 65535 on 1 byte, 00"),
    ("l 2 300 0 00", f"{NEVER} behind 0 comes the next one"),
)

# ---- bounds, and what goes wrong outside


def shared_names(symbols, length):
    """An image whose symbols, each a byte behind the last, have names that are tails of one long one."""
    start = 0xFFFFFFFF80000000
    sections = (0, 0, 0, 0), (2, 312, 24 * symbols, 2), (3, 312 + 24 * symbols, length + 2, 0)
    table = b"".join(struct.pack("<IIQQQQIIQQ", 0, kind, 0, 0, place, size, link, 0, 1, 24)
                     for kind, place, size, link in sections)
    rows = b"".join(struct.pack("<IBBHQQ", 1 + it, 18, 0, 1, start + it, 1) for it in range(symbols))
    return made_image(start, 5, name=b"x")[:120] + table + rows + b"\0" + b"n" * length + b"\0"


def confined(words, seconds=20, memory=1 << 29, **streams):
    """Status and remarks of the tool with so much time and memory."""
    def confine():
        resource.setrlimit(resource.RLIMIT_CPU, (seconds, seconds))
        resource.setrlimit(resource.RLIMIT_AS, (memory, memory))

    done = subprocess.run([sys.executable, "-B", TOP / "tools" / "explain", *words], stderr=subprocess.PIPE,
                          preexec_fn=confine, check=False, **streams)
    return done.returncode, done.stderr.decode()


def try_bounds(folder):
    name, text = folder / "image", folder / "text"
    cut = f"{'n' * 256}.."
    name.write_bytes(shared_names(2000, 4000000))
    try_rows(place_rows((("ffffffff80000000", f"{cut}, code"), ("ffffffff800007cf", f"{cut}, code"))), image=name)
    name.write_bytes(shared_names(300, 256))
    try_rows(place_rows((("ffffffff80000000", f"{'n' * 256}, code"), ("ffffffff80000001", f"{'n' * 255}, code"))),
             image=name)
    name.write_bytes(shared_names(100000, 1000000))
    text.write_bytes(b"i 32 - ffffffff80000000 -\n" * 1000)
    compare("many symbols and names", (0, ""), confined((name, text), stdout=subprocess.DEVNULL))
    whole = made_image(0xFFFFFFFF80000000, 5)
    name.write_bytes(whole[:56] + b"\x41\0" + whole[58:])
    compare("65 program headers", (2, "", f"explain: {name}: it has 65 program headers, and no run has an image with "
                                          f"more than 64\n{USAGE}"), explain(name, "/dev/null"))
    with open(text, "wb") as file:
        file.truncate(67108865)
    for words in ((OUTER, text), (text, OUTER)):
        compare("a file that is too long", (2, "", f"explain: {text}: it has more than 67108864 bytes\n{USAGE}"),
                explain(*words))
    compare("no end of a file", (2, "", f"explain: /dev/zero: it has more than 67108864 bytes\n{USAGE}"),
            explain(OUTER, "/dev/zero"))
    compare("a trace without lines", (1, "trace: line 1 of the trace is out of form"),
            (lambda said: (said[0], said[1].splitlines()[0]))(explain("--turns", "/dev/zero", OUTER, "/dev/null")))
    with open(text, "wb") as file:
        file.truncate(67108864)
    compare("no memory", (2, "explain: out of memory\n"), confined((text, OUTER), memory=1 << 26))


def try_output(folder):
    text = folder / "text"
    text.write_bytes(b"c 61\n" * 1000)
    shell = 'exec "$0" "$@" >&-'
    done = subprocess.run(["sh", "-c", shell, sys.executable, "-B", TOP / "tools" / "explain", OUTER, text],
                          capture_output=True, check=False)
    compare("standard output closed", (2, b"", b"explain: the output: it is closed\n"),
            (done.returncode, done.stdout, done.stderr))
    with subprocess.Popen(["true"], stdin=subprocess.PIPE) as reader:
        reader.wait()
        compare("a closed pipe", (2, ""),
                confined((OUTER, text), stdout=reader.stdin))
    with open("/dev/full", "wb") as full:
        compare("a full device", (2, "explain: the output: No space left on device\n"),
                confined((OUTER, text), stdout=full))
    done = subprocess.run(["sh", "-c", 'exec "$0" "$@" 2>&-', sys.executable, "-B", TOP / "tools" / "explain", OUTER],
                          capture_output=True, check=False)
    compare("standard error closed", (2, b"", b""), (done.returncode, done.stdout, done.stderr))


def try_all():
    try_entries()
    try_rows(STRANGE, wanted_status=1)
    with tempfile.TemporaryDirectory() as name:
        folder = pathlib.Path(name)
        try_bounds(folder)
        try_output(folder)
