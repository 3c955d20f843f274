"""The lines of a run, and how each of their words is spelled (docs/FORMATS.md)."""
import re

from explain_words import console_words, count_words

DECIMAL = (r"0|[1-9][0-9]{0,19}", "a decimal number without leading zeros")
HEXADECIMAL = (r"0|[1-9a-f][0-9a-f]{0,15}", "a lower-case hexadecimal number without leading zeros")
ADDRESS = (r"[0-9a-f]{16}", "16 lower-case hexadecimal digits")
BYTES = (r"(?:[0-9a-f]{2})+", "two lower-case hexadecimal digits for each byte")
BYTE = (r"[0-9a-f]{2}", "two lower-case hexadecimal digits")
NUMBER_OR_NONE = (rf"-|{HEXADECIMAL[0]}", f"- or {HEXADECIMAL[1]}")
ADDRESS_OR_NONE = (rf"-|{ADDRESS[0]}", f"- or {ADDRESS[1]}")
SOURCE = (rf"-|!|{BYTES[0]}", f"-, ! or {BYTES[1]}")
ENDING = (r"halted|steps", "halted or steps")
KIND = (r"data|table[1-4]|guarded", "data, table1 to table4 or guarded")
POLICY = (r"[1-4]", "a policy, 1 to 4")
FORMS = {
    "c": (("HH", BYTE),),
    "i": (("V", DECIMAL), ("E", NUMBER_OR_NONE), ("RIP", ADDRESS), ("CR2", ADDRESS_OR_NONE)),
    "k": (("N", HEXADECIMAL), ("A", HEXADECIMAL), ("B", HEXADECIMAL), ("C", HEXADECIMAL), ("D", HEXADECIMAL),
          ("SRC", SOURCE), ("ANS", DECIMAL), ("PLACE", ADDRESS_OR_NONE)),
    "end": (("WHY", ENDING),),
    "turns": (("N", DECIMAL),),
    "root": (("FRAME", DECIMAL),),
    "trap": (("ADDR", ADDRESS),),
    "f": (("FRAME", DECIMAL), ("KIND", KIND)),
    "t": (("FRAME", DECIMAL), ("INDEX", DECIMAL), ("VALUE", ADDRESS)),
    "r": (("ID", DECIMAL), ("POLICY", POLICY), ("PLACE", ADDRESS), ("SIZE", DECIMAL), ("BYTES", BYTES)),
    "l": (("NUMBER", DECIMAL), ("REGION", DECIMAL), ("OFFSET", DECIMAL), ("BYTES", BYTES)),
}
# Lines of one rank come in any order; a line never comes behind one of a higher rank, nor twice where it is single.
RANKS = {"c": 0, "i": 0, "k": 0, "end": 1, "turns": 2, "root": 3, "trap": 4, "f": 5, "t": 6, "r": 7, "l": 8}
SINGLE = ("end", "turns", "root", "trap")


class Wrong(Exception):
    """A line that isn't in form, or that no run writes."""


def check_word(name, word, spelling):
    pattern, meaning = spelling
    if not re.fullmatch(pattern, word):
        raise Wrong(f"out of form: {name} is '{word[:40]}', and not {meaning}")
    if spelling is DECIMAL and int(word) >= 1 << 64:
        raise Wrong(f"out of form: {name} is {word}, which has more than 64 bits")


def split_line(line):
    """The name of a line and its words by name, each in form."""
    if not line:
        raise Wrong("out of form: the line is empty")
    name, *words = line.split(" ")
    if name not in FORMS:
        raise Wrong(f"out of form: '{console_words(name[:40].encode('latin-1'))}' begins no line of a run")
    form = FORMS[name]
    if len(words) != len(form):
        wanted = " ".join([name, *(it for it, _ in form)])
        raise Wrong(f"out of form: it has {count_words(len(words) + 1, 'word')}, and not those of {wanted}")
    for (it, spelling), word in zip(form, words):
        check_word(it, console_words(word.encode("latin-1")), spelling)
    return name, {it: word for (it, _), word in zip(form, words)}
