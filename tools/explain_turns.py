"""The turns of a trace (docs/FORMATS.md, "The lines of a trace"): at which each line of a run's text came, and whose
the turns were."""
import collections
import re
import sys

from explain_form import Wrong, split_line
from explain_layout import owner_words

Event = collections.namedtuple("Event", "turn key")
Line = collections.namedtuple("Line", "number key")

STATE = re.compile(r"state turn (0|[1-9]\d{0,9}) (?:outer|gate|nested) cpl [03] rip [0-9a-f]{16} flags .*", re.ASCII)
STEP = re.compile(r"(0|[1-9]\d{0,9}) (?:outer|gate|nested) [03] ([0-9a-f]{16}) (-|(?:[0-9a-f]{2})+) (.+)", re.ASCII)
FRAME = re.compile(r"frame (?:0|[1-9]\d{0,4}) (?:[0-9a-f]{2}){4096}", re.ASCII)
END = re.compile(r"end (halted|steps|until|to)")
TURNS = re.compile(r"turns (0|[1-9]\d{0,9})", re.ASCII)
CONSOLE = re.compile(r"console ([0-9a-f]{2})")
DELIVER = re.compile(r"deliver (\d{1,2}) \S+(?: code (0|[1-9a-f][0-9a-f]*) \([^)]*\))?(?: cr2 ([0-9a-f]{16}))?",
                     re.ASCII)
CALL = re.compile(r"call (\d{1,20}) \S+" + "".join(rf" {it} ([0-9a-f]{{16}})" for it in "abcd"), re.ASCII)
ANSWER = re.compile(r"accepted (\d{1,20})|refused (\d{1,2}) \w+", re.ASCII)
LONGEST = 1 << 20  # of a line; a write of 65,536 bytes shows each once


class Misfit(Exception):
    """A trace that is out of form, or that isn't of the text's run."""


def event_key(address, code, text, changes):
    """The line of the run that an event's step shows, with .. for the bytes of a source."""
    events = [it for it in (*changes, text) if it.startswith(("console ", "deliver ", "call "))]
    if len(events) != 1:
        raise ValueError
    if events[0].startswith("console "):
        return f"c {matched(CONSOLE, events[0])[1]}"
    if events[0].startswith("deliver "):
        return delivery_key(address, code, text, matched(DELIVER, events[0]))
    return call_key(matched(CALL, text), changes)


def delivery_key(address, code, text, deliver):
    vector, error, cr2 = deliver.groups()
    if error is None and text.startswith(("int.", "int3.")):
        address = f"{(int(address, 16) + len(code) // 2) % (1 << 64):016x}"
    return f"i {vector} {error or '-'} {address} {cr2 or '-'}"


def call_key(call, changes):
    answers = [it[1] or it[2] for it in map(ANSWER.fullmatch, changes) if it]
    places = [it[6:] for it in changes if it.startswith("place ")]
    if len(answers) != 1:
        raise ValueError
    words = " ".join(f"{int(it, 16):x}" for it in call.groups()[1:])
    source = "!" if "source unreadable" in changes else ".."
    return f"k {int(call[1]):x} {words} {source} {answers[0]} {places[0] if places else '-'}"


def line_key(line):
    """A line of the text as event_key() has it; None for one that is none, or out of form."""
    try:
        name, words = split_line(line)
    except Wrong:
        return None
    if name == "k" and words["SRC"] != "!":
        words["SRC"] = ".."
    return sys.intern(" ".join([name, *words.values()]))


class Trace:
    """What a trace shows: its events with their turns, how many turns began at each address, and its end."""

    def __init__(self, lines):
        self.events, self.places, self.shown = [], collections.Counter(), 0
        self.first = self.next = self.turns = self.why = None
        for number, line in enumerate(lines, 1):
            try:
                self.take(line)
            except ValueError:
                raise Misfit(f"line {number} of the trace is out of form") from None
        if self.turns is None:
            raise Misfit("the trace doesn't end with its lines end and turns")

    def take(self, line):
        if self.first is None:
            self.first = self.next = int(matched(STATE, line)[1])
        elif self.why is not None:
            self.take_end(line)
        elif END.fullmatch(line):
            self.why = line[4:]
        elif self.shown or not FRAME.fullmatch(line):
            self.take_step(*matched(STEP, line).groups())

    def take_end(self, line):
        if self.turns is not None:
            raise ValueError
        self.turns = int(matched(TURNS, line)[1])
        if self.turns < self.next:
            raise ValueError

    def take_step(self, turn, address, code, rest):
        turn, (text, *changes) = int(turn), rest.split("; ")
        if turn < self.next:
            raise ValueError
        is_turn = not text.startswith("event ")
        self.next = turn + is_turn
        self.shown += is_turn
        if not is_turn:
            return
        self.places[address] += 1
        if text.startswith("call ") or "; console " in rest or "; deliver " in rest:
            self.events.append(Event(turn, sys.intern(event_key(address, code, text, changes))))

    def left_out(self):
        return self.turns - self.first - self.shown


def matched(pattern, line):
    found = pattern.fullmatch(line)
    if found is None:
        raise ValueError
    return found


def trace_lines(file):
    """The lines of a trace, one by one, none longer than a trace has them."""
    while True:
        line = file.readline(LONGEST + 1)
        if not line:
            return
        yield line.decode("latin-1").rstrip("\n") if len(line) <= LONGEST else ""


class Turns:
    """The turns of the text's lines by their numbers, as far as the trace has them, and a remark where it has none."""

    def __init__(self, trace, lines):
        self.trace, self.of, self.remark = trace, {}, None
        self.end = self.whole = None
        self.match(list(self.read(lines)))

    def read(self, lines):
        """The text's lines that a trace shows; where the run ends in it, and behind how many turns, is kept."""
        for number, line in enumerate(lines, 1):
            key = line_key(line) if line.startswith(("c ", "i ", "k ", "end ", "turns ")) else None
            if key is None:
                continue
            if key.startswith("end "):
                self.end = self.end or number
            elif key.startswith("turns "):
                self.whole = int(key[6:]) if self.end and self.whole is None else self.whole
            elif self.end is None:
                yield Line(number, key)

    def match(self, told):
        trace, events = self.trace, self.trace.events
        self.check_end()
        kinds = {it.key[0] for it in events}
        if trace.left_out() and len(kinds) < 2:
            told = [it for it in told if it.key[0] in kinds]  # --only shows lines of one kind
        starts = self.starts(told, [it.key for it in events])
        if len(starts) == 1:
            self.of.update((line.number, it.turn) for line, it in zip(told[starts[0]:], events))
        elif events:
            self.remark = f"what the trace shows stands at {len(starts)} places of the text, so no line gets its turn"
        if self.whole is not None and trace.turns == self.whole:
            self.of[self.end] = trace.turns

    def check_end(self):
        turns, why = self.trace.turns, self.trace.why
        if self.whole is not None and (turns > self.whole or why == "halted" and turns != self.whole):
            raise Misfit(f"the trace ends behind {turns} turns, and the text's run behind {self.whole}")

    def starts(self, told, keys):
        """How many of the text's lines may come before what the trace shows."""
        trace, spare = self.trace, len(told) - len(keys)
        if trace.first == 0:
            self.compare(told, 0, self.whole is not None, self.whole == trace.turns)
            return [0]
        if not keys:
            return []
        if self.whole is None:
            raise Misfit("the text has no end, so that the place of a part of the run isn't told in it")
        if trace.turns == self.whole:
            self.compare(told, max(spare, 0), True, True)
            return [spare]
        # Each line took a turn of its own.
        found = [it for it in places([line.key for line in told], keys)
                 if it <= trace.first and spare - it <= self.whole - trace.turns]
        if not found:
            raise Misfit("what the trace shows stands nowhere in the text")
        return found

    def compare(self, told, start, is_whole, is_last):
        """Tells where text and trace, which begins behind so many lines, first differ."""
        events = self.trace.events
        for line, it in zip(told[start:], events):
            if line.key != it.key:
                raise Misfit(f"line {line.number} of the text is '{line.key}', and at turn {it.turn} the trace has "
                             f"'{it.key}'")
        rest = len(told) - start - len(events)
        if rest < 0 and is_whole:
            it = events[rest]
            raise Misfit(f"at turn {it.turn} the trace has '{it.key}', and the text has no line for it")
        if rest > 0 and is_last:
            line = told[-rest]
            raise Misfit(f"line {line.number} of the text is '{line.key}', and the trace doesn't have it")

    def count_words(self):
        """How many turns the trace shows, and how many between them it leaves out."""
        shown, left_out = self.trace.shown, self.trace.left_out()
        return f"{shown} in all" if not left_out else f"{shown} shown and {left_out} left out"

    def table(self, image):
        return self.count_words(), list(self.rows(image))

    def rows(self, image):
        """Whose turns those of the trace were, their number and their share, most first."""
        owners = collections.Counter()
        for address, turns in self.trace.places.items():
            owners[owner_words(int(address, 16), image)] += turns
        for name, turns in sorted(owners.items(), key=lambda it: (-it[1], it[0])):
            yield name, turns, f"{100 * turns / self.trace.shown:.1f} %"


def places(text, part):
    """Where a part stands in a text, by its longest beginnings that end at each place (Knuth, Morris and Pratt)."""
    if not part:
        return []
    borders, length = [0] * len(part), 0
    for at in range(1, len(part)):
        while length and part[at] != part[length]:
            length = borders[length - 1]
        length += part[at] == part[length]
        borders[at] = length
    found, length = [], 0
    for at, it in enumerate(text):
        while length and (length == len(part) or it != part[length]):
            length = borders[length - 1]
        length += it == part[length]
        if length == len(part):
            found.append(at + 1 - length)
    return found
