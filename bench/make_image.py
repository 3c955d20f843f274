"""make_image.py FILE MIB: writes an ELF image whose one segment is so many MiB of real machine code without a protected encoding.

The code is that of the machine's own programs and libraries: the executable segments of the ELF files in the usual folders,
one after another until the segment is full. A byte that would complete a protected encoding is turned into 90 (NOP)."""
import glob
import os
import re
import struct
import sys

SIZE = int(sys.argv[2]) * 1024 * 1024
PAGE = 4096
HOME = 0xFFFFFFFF80000000

# 0F 22 xx, 0F 23 xx, 0F 30, 0F 01 with mod not 3 and reg 2 or 3, 0F 01 with reg 6, 0F 00 with reg 2 or 3.
NOT_3_REG_2_3 = rb"[\x10-\x1f\x50-\x5f\x90-\x9f]"
REG_6 = rb"[\x30-\x37\x70-\x77\xb0-\xb7\xf0-\xf7]"
REG_2_3 = rb"[\x10-\x1f\x50-\x5f\x90-\x9f\xd0-\xdf]"
PROTECTED = re.compile(
    rb"\x0f(?:[\x22\x23](?=.)|\x30|\x01(?:" + NOT_3_REG_2_3 + rb"|" + REG_6 + rb")|\x00" + REG_2_3 + rb")", re.S)


def executable_parts(path):
    """The bytes of the executable segments of an ELF64 file; nothing where it is none."""
    with open(path, "rb") as file:
        data = file.read()
    if data[:5] != b"\x7fELF\x02" or len(data) < 64:
        return
    offset, = struct.unpack_from("<Q", data, 32)
    count, = struct.unpack_from("<H", data, 56)
    for i in range(count):
        kind, flags, start, _, _, size = struct.unpack_from("<IIQQQQ", data, offset + 56 * i)
        if kind == 1 and flags & 1:
            yield data[start:start + size]


def real_code():
    code = bytearray()
    paths = sorted(glob.glob("/usr/bin/*") + glob.glob("/usr/lib/x86_64-linux-gnu/*.so*"))
    for path in paths:
        if len(code) >= SIZE:
            break
        if os.path.isfile(path) and not os.path.islink(path):
            for part in executable_parts(path):
                code += part
    if not code:
        sys.exit("no ELF file found to take code from")
    while len(code) < SIZE:
        code += code[:SIZE - len(code)]
    return code[:SIZE]


def without_hits(code):
    """Turns the second byte of each protected encoding into NOP, until none is left."""
    while True:
        hits = [match.start() for match in PROTECTED.finditer(bytes(code))]
        if not hits:
            return code
        for hit in hits:
            code[hit + 1] = 0x90


def main():
    code = without_hits(real_code())
    header = struct.pack("<16sHHIQQQIHHHHHH", b"\x7fELF\x02\x01\x01", 2, 62, 1, HOME, 64, 0, 0, 64, 56, 1, 0, 0, 0)
    segment = struct.pack("<IIQQQQQQ", 1, 5, PAGE, HOME, HOME, SIZE, SIZE, PAGE)
    with open(sys.argv[1], "wb") as file:
        file.write((header + segment).ljust(PAGE, b"\0") + code)


main()
