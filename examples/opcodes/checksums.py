"""A checksum of whole answers for each opcode: FNV-1a of 64 bits over the answers to 4,096 inputs of 15 bytes.

An input is prefix bytes, 0F or none, the opcode, each byte behind it, and a tail. The order of inputs and the bytes of
an answer are those of src/decoder/whole.rt in the crate decoding_tests."""
from reader import Memory, OPERATIONS, read

PREFIX_SETS = [bytes.fromhex(text) for text in ("", "66", "48", "45", "66 4B", "F3 41", "F0 F2", "40 66")]
NUMBERS = {name: number for number, name in enumerate(OPERATIONS, 1)}
WORDS = {"Short": 2, "TooLong": 3, "Unknown": 4}
REPEATS = {"No": 0, "WhileEqual": 1, "WhileNot": 2}
KINDS = {"reg": 1, "high": 2, "value": 4}


def tail(byte):
    found = []
    for _ in range(15):
        found.append(byte)
        byte = (37 * byte + 0x35) % 256
    return bytes(found)


TAILS = [tail(0x91), tail(0xE5)]


def place_bytes(place):
    if place is None:
        return bytes(14)
    if isinstance(place, Memory):
        registers = [255 if register is None else register for register in (place.base, place.index)]
        return bytes([3, 0, *registers, place.scale, place.rip]) + place.disp.to_bytes(8, "little")
    return bytes([KINDS[place[0]], *place[1:]]).ljust(14, b"\0")


def answer_bytes(answer):
    if isinstance(answer, str):
        return bytes([WORDS[answer]])
    operation = [NUMBERS[answer.op], answer.condition or 0]
    head = bytes([1, answer.length, *operation, answer.width, REPEATS[answer.rep], answer.lock])
    return head + answer.value.to_bytes(8, "little") + place_bytes(answer.to) + place_bytes(answer.source)


def checksum(after_escape, opcode):
    found = 0xCBF29CE484222325
    code = bytes([0x0F, opcode]) if after_escape else bytes([opcode])
    for prefixes in PREFIX_SETS:
        for end in TAILS:
            for byte in range(256):
                for part in answer_bytes(read((prefixes + code + bytes([byte]) + end)[:15])):
                    found = (found ^ part) * 0x100000001B3 % 2 ** 64
    return found
