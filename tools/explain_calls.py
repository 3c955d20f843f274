"""Tells the lines of a run one by one, and keeps what its calls made."""
import collections

from explain_form import RANKS, SINGLE, Wrong, split_line
from explain_layout import LAST_VECTOR, MOST_FRAMES, entry_words, frame_words, place_words
from explain_rules import (CALL_RULES, FIRST_REGION, MOST_BYTES, RULES, check_answer, check_arguments, check_place,
                           check_source, is_accepted, refused_words)
from explain_tables import Tables
from explain_words import PAGE_FAULT, POLICIES, bytes_words, count_words, error_words, policy_words, vector_words

MOST_TURNS = 1 << 32
NO_REGION = f"no run writes this: regions have numbers from {FIRST_REGION} on and at most {MOST_BYTES} bytes"


class Region:
    """A region, by the calls that made, wrote and freed it, and by its line at the end."""

    def __init__(self, number, policy, size, place, made=None):
        self.number, self.policy, self.size, self.place = number, policy_words(policy), size, place
        self.made, self.freed, self.writes, self.content = made, None, [], None


def read_frame(words):
    frame = int(words["FRAME"])
    if frame >= MOST_FRAMES:
        raise Wrong(f"no run writes this: FRAME is {frame}, and a memory has at most {MOST_FRAMES} frames")
    return frame


def key_words(key):
    return " ".join(map(str, key)) if isinstance(key, tuple) else str(key)


class Reader:
    """Tells the lines one by one, and keeps what the lines before said of frames, tables and regions."""

    def __init__(self, image, rows=()):
        self.image, self.tables = image, Tables(rows)
        self.number, self.rank, self.seen, self.last = 0, 0, set(), {}
        self.kinds, self.regions, self.all_regions = {}, {}, []
        self.counts, self.rules, self.vectors = collections.Counter(), collections.Counter(), collections.Counter()

    def address(self, address):
        return f"{address:016x} ({place_words(address, self.image)})"

    def check_order(self, name):
        if RANKS[name] < self.rank or (name in SINGLE and name in self.seen):
            raise Wrong(f"out of order: no line {name} comes here")
        self.rank = RANKS[name]
        self.seen.add(name)

    def check_rise(self, name, key, is_next=False):
        """Lines of a name come by rising keys; where they are counted, each by the next one."""
        last = self.last.get(name)
        if last is not None and (key != last + 1 if is_next else key <= last):
            which = "the next" if is_next else "a greater"
            raise Wrong(f"no run writes this: behind {key_words(last)} comes {which} one")
        self.last[name] = key

    def tell(self, line):
        """The line's name, what it says, and its words."""
        self.number += 1
        name, words = split_line(line)
        self.check_order(name)
        return name, getattr(self, f"tell_{name}")(words), words

    def tell_c(self, words):
        self.counts["console"] += 1  # told_lines() gathers the bytes, and tells them

    def tell_i(self, words):
        vector = int(words["V"])
        if vector > LAST_VECTOR:
            raise Wrong(f"out of form: V is {vector}, and vectors are 0 to {LAST_VECTOR}")
        if (words["CR2"] != "-") != (vector == PAGE_FAULT):
            raise Wrong("out of form: CR2 has 16 digits exactly where V is 14")
        self.counts["deliveries"] += 1
        self.vectors[vector] += 1
        text = f"delivery of {vector_words(vector)}, {error_words(vector, words['E'])}"
        text += f"; RIP {self.address(int(words['RIP'], 16))}"
        return text if words["CR2"] == "-" else f"{text}; CR2 {self.address(int(words['CR2'], 16))}"

    def tell_k(self, words):
        number, *arguments = (int(words[it], 16) for it in "NABCD")
        answer = int(words["ANS"])
        check_answer(number, answer, words["PLACE"])
        check_source(number, answer, arguments[3], words["SRC"])
        check_arguments(number, answer, arguments)
        if words["PLACE"] != "-":
            check_place(int(words["PLACE"], 16), arguments[0])
        if is_accepted(number, answer) and number in (6, 7):
            self.check_rise("region", answer, is_next=True)
        asked = self.asked(number, *arguments)
        if words["SRC"] == "!":
            asked += ", whose bytes could not be read"
        elif words["SRC"] != "-":
            asked += f" ({bytes_words(words['SRC'])})"
        self.counts["calls"] += 1
        if is_accepted(number, answer):
            self.take(number, answer, arguments, words["PLACE"])
            return f"call {number}, {asked}: {self.accepted(answer, words['PLACE'])}"
        self.rules[answer] += 1
        return f"call {number}, {asked}: {refused_words(number, answer)}"

    def asked(self, number, a, b, c, d):
        """A call's name, and its arguments by what they mean."""
        if number == 1:
            return f"set the trap handler to {self.address(a)}"
        if number == 2:
            return f"declare a table of level {a} in {frame_words(b)}"
        if number == 3:
            name = self.entry_name(a, b).rstrip(",")
            return f"write {name}: {c:x}, {entry_words(c, self.tables.levels.get(a))}"
        if number == 4:
            return f"remove the table in {frame_words(a)}"
        if number == 5:
            return f"load the table in {frame_words(a)} as root"
        if number == 6:
            return f"declare pages of {count_words(b, 'byte')} from {self.address(a)} on, {policy_words(c)}"
        if number == 7:
            return f"allocate {count_words(a, 'byte')}, {policy_words(b)}"
        if number == 8:
            return f"free {self.region_words(a)}"
        if number == 9:
            return (f"write {count_words(d, 'byte')} in {self.region_words(a)} from offset {b} on, "
                    f"source {self.address(c)}")
        return f"of which there is none, with {a:x} {b:x} {c:x} {d:x}"

    def entry_name(self, table, index):
        """An entry by its table, and where the tables tell it by what it stands for, between commas."""
        level = self.tables.levels.get(table)
        name = f"the level {level} table in {frame_words(table)}" if level else f"the table in {frame_words(table)}"
        place = self.tables.place_words(table, index)
        return f"entry {index} of {name}, {place}," if place else f"entry {index} of {name}"

    def region_words(self, number):
        region = self.regions.get(number)
        if region is None:
            return f"region {number}"
        return f"region {number} ({region.policy}, {count_words(region.size, 'byte')})"

    def accepted(self, answer, place):
        if answer == 0:
            return "accepted"
        return f"accepted, region {answer}" + ("" if place == "-" else f" at {self.address(int(place, 16))}")

    def take(self, number, answer, arguments, place):
        """Keeps and counts what an accepted call changes."""
        a, b, c, d = arguments
        self.counts["accepted"] += 1
        self.counts[number] += 1
        if number == 2:
            self.tables.declare(a, b)
            self.kinds[b] = f"Table({a})"
        elif number == 3:
            self.tables.write(a, b, c)
        elif number == 4:
            self.tables.remove(a)
            self.kinds[a] = "Data"
        elif number == 6:
            self.add_region(Region(answer, c, b, a, f"declared in line {self.number}"))
            self.counts["declared bytes"] += b
        elif number == 7:
            self.add_region(Region(answer, b, a, int(place, 16), f"allocated in line {self.number}"))
            self.counts["allocated bytes"] += a
        elif number == 8 and a in self.regions:
            self.regions[a].freed = self.number
        elif number == 9:
            self.counts["written bytes"] += d
            self.take_write(a, b, d)

    def add_region(self, region):
        self.regions[region.number] = region
        self.all_regions.append(region)

    def take_write(self, number, offset, length):
        region = self.regions.get(number)
        if region is None:
            return
        region.writes.append((offset, offset + length))
        if region.policy == POLICIES[4]:
            self.counts["logged"] += 1
            self.counts["logged bytes"] += length

    def tell_end(self, words):
        why = {"halted": "halted, and nothing was left to wake the processor", "steps": "all turns of STEPS were taken"}
        return f"the run ended: {why[words['WHY']]}"

    def tell_turns(self, words):
        number = int(words["N"])
        if number > MOST_TURNS:
            raise Wrong(f"no run writes this: N is {number}, and STEPS is at most {MOST_TURNS}")
        return f"{count_words(number, 'turn was', 'turns were')} taken"

    def tell_root(self, words):
        self.kinds.clear()  # the lines f say anew which frames have another kind
        return f"the root page table is {frame_words(read_frame(words))}"

    def tell_trap(self, words):
        return f"the trap handler is {self.address(int(words['ADDR'], 16))}"

    def tell_f(self, words):
        frame, kind = read_frame(words), words["KIND"]
        self.check_rise("f", frame)
        self.kinds[frame] = kind.capitalize()
        level = int(kind[-1]) if kind.startswith("table") else None
        if level is None:
            self.tables.remove(frame)
        else:
            self.tables.levels[frame], self.kinds[frame] = level, f"Table({level})"
            kind = f"a table of level {level}"
        return f"{frame_words(frame)} is now {kind}"

    def tell_t(self, words):
        frame, index, value = read_frame(words), int(words["INDEX"]), int(words["VALUE"], 16)
        if index > 511:
            raise Wrong(f"out of form: INDEX is {index}, and a table has 512 entries")
        self.check_rise("t", (frame, index))
        level = self.tables.levels.get(frame)
        return f"{self.entry_name(frame, index)} is now {words['VALUE']}, {entry_words(value, level)}"

    def tell_r(self, words):
        number, size = int(words["ID"]), int(words["SIZE"])
        if len(words["BYTES"]) != 2 * size:
            raise Wrong(f"out of form: SIZE is {size}, and BYTES has {count_words(len(words['BYTES']) // 2, 'byte')}")
        if number < FIRST_REGION or size > MOST_BYTES:
            raise Wrong(NO_REGION)
        self.check_rise("r", number)
        self.counts["regions"] += 1
        self.take_bytes(number, int(words["POLICY"]), int(words["PLACE"], 16), bytes.fromhex(words["BYTES"]))
        return (f"region {number}, {POLICIES[int(words['POLICY'])]}, at {self.address(int(words['PLACE'], 16))} "
                f"has {bytes_words(words['BYTES'])}")

    def take_bytes(self, number, policy, place, content):
        region = self.regions.get(number)
        if region is None or region.freed or region.size != len(content):
            region = Region(number, policy, len(content), place)
            self.add_region(region)
        region.content = content

    def tell_l(self, words):
        end = int(words["OFFSET"]) + len(words["BYTES"]) // 2
        if int(words["REGION"]) < FIRST_REGION or end > MOST_BYTES:
            raise Wrong(NO_REGION)
        self.check_rise("l", int(words["NUMBER"]), is_next=True)
        self.counts["records"] += 1
        return (f"record {words['NUMBER']} of the log: in region {words['REGION']} from offset {words['OFFSET']} on "
                f"{bytes_words(words['BYTES'])}")

    def summary(self):
        """What was declared, allocated, logged and refused, how often each rule."""
        count, refused = self.counts, sum(self.rules.values())
        yield f"console: {count_words(count['console'], 'byte')}"
        yield f"deliveries: {count['deliveries']}"
        yield from (f"  vector {vector}: {times}" for vector, times in sorted(self.vectors.items()))
        yield f"calls: {count['calls']}, accepted {count['accepted']}, refused {refused}"
        yield f"declared: {count_words(count[2], 'table')}, {count_words(count[6], 'region')} of " \
              f"{count_words(count['declared bytes'], 'byte')}"
        yield f"allocated: {count_words(count[7], 'region')} of {count_words(count['allocated bytes'], 'byte')}"
        yield f"removed: {count_words(count[4], 'table')}; freed: {count_words(count[8], 'region')}"
        yield f"handlers set: {count[1]}; entries written: {count[3]}; roots loaded: {count[5]}"
        yield f"written: {count_words(count[9], 'time')}, {count_words(count['written bytes'], 'byte')}"
        yield f"logged: {count_words(count['logged'], 'time')}, {count_words(count['logged bytes'], 'byte')}"
        yield f"at the end: {count_words(count['regions'], 'region')}, {count_words(count['records'], 'record')}"
        yield f"refused: {count_words(refused, 'call')}"
        yield from (f"  rule {rule}, {RULES[rule][0]}: {times}" for rule, times in sorted(self.rules.items()))
