"""Runs tools/explain for its tests, and compares what it says with what was typed by hand."""
import pathlib
import struct
import subprocess
import sys
import tempfile

TOP = pathlib.Path(__file__).resolve().parent.parent
OUTER = TOP / "examples" / "images" / "outer.elf"
USAGE = "usage: tools/explain [--html FILE] [--frames FRAMES] [--turns TRACE] IMAGE JOURNAL\n"
faults, tried = [], []


def explain(*words):
    done = subprocess.run([sys.executable, "-B", TOP / "tools" / "explain", *words], capture_output=True, check=False)
    return done.returncode, done.stdout.decode(), done.stderr.decode()


def compare(name, wanted, seen):
    tried.append(name)
    if wanted != seen:
        faults.append(f"{name}\n  wanted {wanted!r}\n  seen   {seen!r}")


def told(text, image=OUTER, words=()):
    """Status, the lines before the summary, and those of the summary."""
    with tempfile.NamedTemporaryFile() as file:
        file.write(text)
        file.flush()
        status, said, remarks = explain(*words, image, file.name)
    compare(f"nothing on standard error for {text[:60]!r}", "", remarks)
    lines = said.splitlines()
    at = lines.index("summary:") if "summary:" in lines else len(lines)
    return status, lines[:at], lines[at + 1:]


def try_rows(rows, image=OUTER, wanted_status=0, words=()):
    """Each row is a line and what is said of it; all are one text."""
    status, lines, _ = told("".join(f"{line}\n" for line, _ in rows).encode("latin-1"), image, words)
    compare(f"status of {rows[0]}", wanted_status, status)
    compare(f"number of lines of {rows[0]}", len(rows), len(lines))
    for number, ((line, wanted), seen) in enumerate(zip(rows, lines), 1):
        compare(line, f"line {number}: {wanted}", seen)


def place_rows(places):
    start = "delivery of vector 32, an interrupt or INT 32, no error code; RIP"
    return [(f"i 32 - {address} -", f"{start} {address} ({place})") for address, place in places]


def made_image(start, flags, size=4097, name=None):
    """A file header and one segment of an ELF64 file, which fills nothing of it; one symbol, where it has a name."""
    sections, table = (0, 0) if name is None else (3, 120)
    header = b"\x7fELF\x02\x01\x01".ljust(16, b"\0") + struct.pack(
        "<HHIQQQIHHHHHH", 2, 62, 1, start, 64, table, 0, 64, 56, 1, 64, sections, 0)
    header += struct.pack("<IIQQQQQQ", 1, flags, 0, start, start, 0, size, 4096)
    return header if name is None else header + symbol_sections(start, name)


def symbol_sections(start, name):
    """The section table at 120, behind it at 312 the table of one symbol, and at 336 its name, each ELF-64's."""
    rows = (0, 0, 0, 0), (2, 312, 24, 2), (3, 336, len(name) + 2, 0)
    table = b"".join(struct.pack("<IIQQQQIIQQ", 0, kind, 0, 0, place, size, link, 0, 1, 24)
                     for kind, place, size, link in rows)
    return table + struct.pack("<IBBHQQ", 1, 18, 0, 1, start, 16) + b"\0" + name + b"\0"
