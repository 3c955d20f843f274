"""Reads what tools/explain is called with, and tells the run in words or as a page."""
import collections
import io
import os
import re
import sys

import explain_html
from explain_calls import Reader
from explain_form import Wrong
from explain_image import Image
from explain_layout import LEAST_FRAMES, MOST_FRAMES, opening_rows
from explain_turns import Misfit, Trace, Turns, trace_lines
from explain_words import console_words, count_words

# Where the trace has turns of a line, or of the first and the last of several, they are told beside it.
Told = collections.namedtuple("Told", "name first last text words turns")
Asked = collections.namedtuple("Asked", "image journal file frames trace")

MOST_BYTES = 67108864  # of a file, as for nkrun


class Misused(Exception):
    """Words that the tool isn't called with, or a file that it can't take."""


def gathered(console, last, turns):
    """The console's bytes of lines in a row, of which this is the last."""
    text = f'console "{console_words(console)}"'
    return Told("c", last - len(console) + 1, last, text, {"BYTES": bytes(console)}, turns)


def text_lines(text):
    """The lines of a text, of which the last may lack its end."""
    return (line.decode("latin-1")[:-1 if line.endswith(b"\n") else None] for line in io.BytesIO(text))


def told_lines(reader, text, turns):
    """Each line in words, the console's bytes gathered up to each LF, and to where the trace begins or ends."""
    number, console, span = 0, [], None
    for number, line in enumerate(text_lines(text), 1):
        turn = turns.get(number)
        try:
            name, said, words = reader.tell(line)
        except Wrong as fault:
            name, said, words = "wrong", str(fault), {}
        if console and (name != "c" or console[-1] == 10 or (span is None) != (turn is None)):
            yield gathered(console, number - 1, span)
            console, span = [], None
        if name == "c":
            console.append(int(words["HH"], 16))
            span = None if turn is None else (span[0] if span else turn, turn)
        else:
            yield Told(name, number, number, said, words, None if turn is None else (turn, turn))
    if console:
        yield gathered(console, number, span)


def where_words(it):
    words = explain_html.line_words(it.first, it.last)
    return f"{words}, {explain_html.turn_words(it.turns)}" if it.turns else words


def explain(reader, told, image, turns, write):
    """Writes each line in words, and what they come to; whether all lines were right."""
    wrong = 0
    if turns and turns.remark:
        write(f"trace: {turns.remark}")
    for it in told:
        write(f"{where_words(it)}: {it.text}")
        wrong += it.name == "wrong"
    write("summary:")
    for line in reader.summary():
        write(f"  {line}")
    if wrong:
        write(f"  wrong lines: {wrong}")
    if turns:
        write(f"turns of the trace, {turns.count_words()}:")
        for name, number, share in turns.rows(image):
            write(f"  {name}: {number}, {share}")
    return not wrong


def read_file(name, take=None):
    """A file's bytes, of which there may be so many, or what is taken of it while it is open."""
    try:
        with open(name, "rb") as file:
            content = take(file) if take else file.read(MOST_BYTES + 1)
    except OSError as fault:
        raise Misused(f"{name}: {fault.strerror}") from None
    if not take and len(content) > MOST_BYTES:
        raise Misused(f"{name}: it has more than {MOST_BYTES} bytes")
    return content


def read_image(name):
    try:
        return Image(read_file(name))
    except ValueError as fault:
        raise Misused(f"{name}: {fault}") from None


def read_rows(image, frames):
    try:
        return opening_rows(image, frames)
    except ValueError as fault:
        raise Misused(fault) from None


def read_turns(name, text):
    """The turns of the text's lines by a trace, or why the trace doesn't have them."""
    if name is None:
        return None, None
    try:
        return Turns(read_file(name, lambda file: Trace(trace_lines(file))), text_lines(text)), None
    except Misfit as fault:
        return None, fault


def read_words(words):
    """The names of image and journal, and what the options ask for."""
    names, given, rest = [], {"--html": None, "--frames": None, "--turns": None}, iter(words)
    for word in rest:
        if word not in given:
            names.append(word)
        elif given[word] is not None:
            raise Misused(f"{word} comes twice")
        else:
            given[word] = next(rest, None)
            if given[word] is None:
                raise Misused(f"{word} wants a word behind it")
    if len(names) != 2:
        raise Misused(f"it takes 2 words, and not {len(names)}")
    return Asked(*names, given["--html"], read_frames(given["--frames"]), given["--turns"])


def read_frames(word):
    if word is None:
        return None
    if not re.fullmatch(r"[1-9][0-9]{2,4}", word) or not LEAST_FRAMES <= int(word) <= MOST_FRAMES:
        raise Misused(f"FRAMES is '{word[:40]}', and not a number from {LEAST_FRAMES} to {MOST_FRAMES}")
    return int(word)


def check_frames(frames, reader):
    """FRAMES isn't the run's where the text has a frame behind it."""
    frame = max(reader.kinds, default=0)
    if frames is not None and frame >= frames:
        raise Misused(f"--frames {frames}: the text has frame {frame} as {reader.kinds[frame]}")


def write_page(asked, rows, reader, told, turns):
    """Writes the run as a page, unless FILE is one of the files that were read."""
    read = [it for it in (asked.image, asked.journal, asked.trace) if it is not None]
    if os.path.exists(asked.file) and any(os.path.samefile(asked.file, it) for it in read):
        raise Misused(f"{asked.file}: it would be written over, and was read")
    names = [console_words(os.fsencode(it)) for it in (asked.image, asked.journal)]
    page = explain_html.page(names, asked.frames, rows, reader, told, turns)
    try:
        with open(asked.file, "wb") as file:
            file.write(page.encode())
    except OSError as fault:
        raise Misused(f"{asked.file}: {fault.strerror}") from None


def main(words):
    """Tells the run that the words ask for: the status."""
    asked = read_words(words)
    image, text = read_image(asked.image), read_file(asked.journal)
    rows, (turns, misfit) = read_rows(image, asked.frames), read_turns(asked.trace, text)
    reader = Reader(image, rows)
    told = told_lines(reader, text, turns.of if turns else {})
    if asked.file is not None or asked.frames is not None:
        told = list(told)
        if all(it.name != "wrong" for it in told):
            check_frames(asked.frames, reader)
            if asked.file is not None and misfit is None:
                write_page(asked, rows, reader, told, turns and turns.table(image))
    if misfit:
        print(f"trace: {misfit}")
    return 0 if explain(reader, told, image, turns, print) and misfit is None else 1
