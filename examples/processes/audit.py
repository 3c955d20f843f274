#!/usr/bin/env python3
"""Writes the audit that docs/FORMATS.md says of the region ID, from the text of a run: a reading that shares nothing
with the program. It believes the text's answers, and compares the log that its calls make with the `l` lines, where it
has them.
usage: audit.py JOURNAL ID"""
import pathlib
import struct
import sys

WRITE_LOG = 4


def calls(lines):
    """Number, arguments, source and answer of each call before the end."""
    for line in lines:
        words = line.split(" ")
        if words[0] == "end":
            return
        if words[0] == "k":
            yield *(int(word, 16) for word in words[1:6]), words[6], int(words[7])


def log_of(lines):
    """The sizes of the pool's write-log regions, and each record: region, offset and bytes."""
    policies, sizes, log = {}, {}, []
    for number, a, b, c, _, source, answer in calls(lines):
        if number == 6 and answer >= 256:
            policies[answer] = c
        if number == 7 and answer >= 256:
            policies[answer] = b
            if b == WRITE_LOG:
                sizes[answer] = a
        if number == 9 and answer == 0 and policies[a] == WRITE_LOG:
            log.append((a, b, bytes.fromhex(source)))
    shown = [line for line in lines if line.startswith("l ")]
    made = [f"l {number} {region} {offset} {put.hex()}" for number, (region, offset, put) in enumerate(log)]
    if shown and shown != made:
        sys.exit("the calls make another log than the text shows")
    return sizes, log


def read_list(region):
    """Whether the chain is good, and the process that each slot hides."""
    slots = list(struct.iter_unpack("<QQ", region[:len(region) // 16 * 16]))
    chain, following = [], 1
    while 1 <= following <= len(slots) and following - 1 not in chain:
        chain.append(following - 1)
        following = slots[following - 1][1]
    hidden = {slot: pid for slot, (pid, _) in enumerate(slots) if slot > 0 and pid != 0 and slot not in chain}
    return not slots or following == 0, hidden


def changes(number, before, after):
    (was_good, was), (is_good, now) = before, after
    if is_good != was_good:
        yield f"{'g' if is_good else 'b'} {number}"
    for slot in sorted({*was, *now}):
        old, new = was.get(slot), now.get(slot)
        if old != new and old is not None:
            yield f"u {number} {slot} {old}"
        if old != new and new is not None:
            yield f"h {number} {slot} {new}"


def main():
    lines, wanted = pathlib.Path(sys.argv[1]).read_text(encoding="ascii").split("\n"), int(sys.argv[2])
    sizes, log = log_of(lines)
    if wanted not in sizes:
        print(f"noregion {wanted}")
        sys.exit(9)
    region, count = bytearray(sizes[wanted]), 0
    for number, (written, offset, put) in enumerate(log):
        if written == wanted:
            before = read_list(region)
            region[offset:offset + len(put)] = put
            count += 1
            for line in changes(number, before, read_list(region)):
                print(line)
    is_good, hidden = read_list(region)
    print(f"records {count}\nhidden {len(hidden)}\nchain {'good' if is_good else 'broken'}")


main()
