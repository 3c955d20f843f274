"""The image that ran: its segments, and its symbols where it has them."""
import bisect
import collections
import struct

from explain_words import console_words

MOST_HEADERS = 64  # docs/FORMATS.md, "Image"
NAME_BYTES = 256

Address = collections.namedtuple("Address", "start size name")


class Image:
    """The segments and symbols of an ELF64 file; one without a section table has no symbols."""

    def __init__(self, content):
        if content[:4] != b"\x7fELF" or content[4:7] != b"\x02\x01\x01" or len(content) < 64:
            raise ValueError("it is no ELF64 file")
        self.content = content
        try:
            self.segments = list(self.read_segments())
        except (struct.error, OverflowError):
            raise ValueError("its program headers pass its end") from None
        self.symbols = {}
        try:
            self.read_symbols()
        except (struct.error, IndexError, OverflowError):
            self.symbols = {}
        self.starts = sorted(self.symbols)

    def read_segments(self):
        table, size, number = *struct.unpack_from("<Q", self.content, 32), *struct.unpack_from("<HH", self.content, 54)
        if number > MOST_HEADERS:
            raise ValueError(f"it has {number} program headers, and no run has an image with more than {MOST_HEADERS}")
        for place in range(table, table + size * number, size or 1):
            kind, flags, _, start, _, _, length = struct.unpack_from("<IIQQQQQ", self.content, place)
            if kind == 1 and length:
                name = "code" if flags & 1 else "data" if flags & 2 else "constants"
                yield Address(start, length, name)

    def read_symbols(self):
        table, size, number = *struct.unpack_from("<Q", self.content, 40), *struct.unpack_from("<HH", self.content, 58)
        sections = [struct.unpack_from("<IIQQQQIIQQ", self.content, table + size * it) for it in range(number)]
        # An object file has one table of this type at most (System V ABI), so that each byte is read once.
        for section in (it for it in sections if it[1] == 2):
            self.read_table(section, sections[section[6]])
            break

    def read_table(self, section, names):
        """Of symbols with one value the last is taken: one with a size before one without, then functions and data."""
        ranks = {}
        for place in range(section[4], section[4] + section[5], 24):
            name, info, _, home, start, size = struct.unpack_from("<IBBHQQ", self.content, place)
            if 0 < home < 0xff00 and info & 15 <= 2 and 0 < name < names[5]:
                rank = size > 0, info & 15 > 0, info >> 4 > 0
                if rank >= ranks.get(start, rank):
                    ranks[start] = rank
                    self.symbols[start] = size, names[4] + name

    def name(self, place):
        """The name at a place of the file; it is read where it is wanted, and a long one is cut."""
        text, end, _ = self.content[place:place + NAME_BYTES + 1].partition(b"\0")
        return console_words(text[:NAME_BYTES]) + ("" if end else "..")

    def segment(self, address):
        """The segment whose pages hold the address."""
        for segment in self.segments:
            end = segment.start + segment.size + 4095
            if segment.start // 4096 <= address // 4096 < end // 4096:
                return segment
        return None

    def symbol(self, address):
        """Name and offset of the nearest symbol at or below the address; one with a size only within it."""
        at = bisect.bisect_right(self.starts, address) - 1
        if at < 0 or self.segment(address) is not self.segment(self.starts[at]):
            return None
        offset = address - self.starts[at]
        size, place = self.symbols[self.starts[at]]
        return None if size and offset >= size else (self.name(place), offset)

    def words(self, address):
        segment = self.segment(address)
        if segment is None:
            return "home, no segment of the image"
        symbol = self.symbol(address)
        if symbol is None:
            return segment.name
        name, offset = symbol
        return f"{name}+0x{offset:x}, {segment.name}" if offset else f"{name}, {segment.name}"
