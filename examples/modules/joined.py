#!/usr/bin/env python3
"""Writes the file that docs/FORMATS.md says of IMAGE and of the modules of LIST, which are files of LIST's folder: a reading
that shares nothing with the program. It checks nothing.
usage: joined.py IMAGE LIST >FILE"""
import pathlib
import struct
import sys

PAGE = 4096
DIRECTORY = 0xFFFFFFFFBFFFF000


def pages(size):
    return (size + PAGE - 1) // PAGE * PAGE


def segments(image):
    """Flags, address, size in memory and bytes of each segment, in table order."""
    table, count = struct.unpack_from("<Q", image, 32)[0], struct.unpack_from("<H", image, 56)[0]
    for i in range(count):
        kind, flags, offset, address, _, size, memory, _ = struct.unpack_from("<IIQQQQQQ", image, table + 56 * i)
        if kind == 1 and memory > 0:
            yield flags & 7, address, memory, image[offset:offset + size]


def modules(end, listed, folder):
    for line in listed.split("\n"):
        if not line:
            continue
        how, name = line.split(" ")
        code = (folder / name).read_bytes()
        start = end + (PAGE if how == "guard" else 0)
        yield 5, start, pages(len(code)), code
        end = start + pages(len(code))


def file_of(entry, parts):
    out = bytearray(b"\x7fELF\x02\x01\x01" + bytes(9))
    out += struct.pack("<HHIQQQIHHHHHH", 2, 62, 1, entry, 64, 0, 0, 64, 56, len(parts), 0, 0, 0)
    end = pages(64 + 56 * len(parts))
    data = bytearray(end)
    for flags, address, memory, part in parts:
        offset = end + (address - end) % PAGE if part else end
        out += struct.pack("<IIQQQQQQ", 1, flags, offset, address, address, len(part), memory, PAGE)
        data += bytes(offset - end) + part
        end = offset + len(part)
    data[:len(out)] = out
    return bytes(data)


def main():
    image, listed = pathlib.Path(sys.argv[1]).read_bytes(), pathlib.Path(sys.argv[2])
    own = list(segments(image))
    end = max(pages(address + memory) for _, address, memory, _ in own)
    added = list(modules(end, listed.read_text(encoding="ascii"), listed.parent))
    directory = struct.pack("<Q", len(added))
    for _, address, _, code in added:
        directory += struct.pack("<QQ", address, len(code))
    parts = own + added + [(4, DIRECTORY, len(directory), directory)]
    sys.stdout.buffer.write(file_of(struct.unpack_from("<Q", image, 24)[0], parts))


main()
