"""Trials of tools/explain --turns, which tools/explain_test runs: a run's text and traces of it and of others, typed by
hand, and what is told of them, by docs/FORMATS.md, "The lines of a trace"."""
import contextlib
import io
import pathlib
import tempfile

import explain_run
from explain_trial import OUTER, USAGE, compare, explain, made_image
from page_tree import Tree, form_faults, list_of, rows_of, section_of

TEXT = """c 68
c 0a
k 1 ffffffff80000110 0 0 0 - 0 -
i 14 2 ffffffff80000150 0000000000001000
c 21
i 47 - ffffffff80000162 -
i 33 - ffffffff80000162 -
k 7 10 1 0 0 - 256 ffffff8000010000
k 9 100 0 7000 2 ! 22 -
k 9 100 0 ffffffff800012c0 2 4142 0 -
i 13 17a ffffffff80000164 -
end halted
turns 13
root 5
trap ffffffff80000110
"""
NONE, REST = "0" * 16, "flags 0000000000000002 rax 0000000000000000 cr4 0000000000100020"
BODY, ZEROS = "nested 0 ffffff800000101b - call", f"c {NONE} d {NONE}; rip ffffff800000101d"
# INT 2F returns behind itself, and so does its RIP; that of INT with a gate that forbids it, of a fault, and of an
# interrupt is where it stood.
STEPS = f"""0 outer 0 ffffffff800000f0 90 nop.64 - - 0
1 outer 0 ffffffff80000140 e6e9 out.8 value r0 e9; console 68
2 outer 0 ffffffff80000142 e6e9 out.8 value r0 e9; console 0a
3 {BODY} 1 set-handler a ffffffff80000110 b {NONE} {ZEROS}; mem 0000000000002000 1000008000; accepted 0
4 outer 0 ffffffff80000150 c604250010000000 mov.8 [-,-,1,1000] value 0; rip ffffff80000010b0; cr2 0000000000001000; \
deliver 14 #PF code 2 (absent write supervisor data) cr2 0000000000001000
5 outer 0 ffffffff80000110 e6e9 out.8 value r0 e9; console 21
6 outer 0 ffffffff80000160 - event irq 33
6 outer 0 ffffffff80000160 cd2f int.64 - value 2f; rip ffffff80000011b8; deliver 47 interrupt
7 outer 3 ffffffff80000162 - interrupt 33; rip ffffff8000001148; cpl 0; deliver 33 interrupt
8 {BODY} 7 allocate a 0000000000000010 b 0000000000000001 {ZEROS}; r9 0000000000000100; accepted 256; \
place ffffff8000010000
9 {BODY} 9 write a 0000000000000100 b {NONE} c 0000000000007000 d 0000000000000002; r9 0000000000000016; \
refused 22 BadSource; source unreadable
10 {BODY} 9 write a 0000000000000100 b {NONE} c ffffffff800012c0 d 0000000000000002; mem 000000000000a000 4142; \
accepted 0
11 outer 3 ffffffff80000164 cd2f int.64 - value 2f; deliver 13 #GP code 17a (selector 47 idt)
12 outer 0 ffffffff80000100 f4 hlt.64 - - 0; halted
""".splitlines()
CALLS = [it for it in STEPS if " call " in it]
END = "end halted\nturns 13\n"


def trace(first, steps, end=END):
    return "\n".join([f"state turn {first} outer cpl 0 rip ffffffff800000f0 {REST}", *steps, end])


WHOLE = trace(0, STEPS)
# From turn 4 to turn 7; an event comes before the turn that has its number.
PART = trace(4, STEPS[4:9], "end to\nturns 8\n")

# What is said of each line of the text, with its turns in the whole trace.
SAID = (
    ("lines 1 to 2", "turns 1 to 2", 'console "h\\n"'),
    ("line 3", "turn 3", "call 1, set the trap handler to ffffffff80000110 (trap_handler, code): accepted"),
    ("line 4", "turn 4", "delivery of vector 14, #PF, page fault, error code 2: bits W/R, no translation for a write "
     "at CPL 0; RIP ffffffff80000150 (kernel_main+0x10, code); CR2 0000000000001000 (the lower half)"),
    ("line 5", "turn 5", 'console "!"'),
    ("line 6", "turn 6", "delivery of vector 47, an interrupt or INT 47, no error code; RIP ffffffff80000162 "
     "(kernel_main+0x22, code)"),
    ("line 7", "turn 7", "delivery of vector 33, an interrupt or INT 33, no error code; RIP ffffffff80000162 "
     "(kernel_main+0x22, code)"),
    ("line 8", "turn 8", "call 7, allocate 16 bytes, write-once: accepted, region 256 at ffffff8000010000 "
     "(pool, byte 0)"),
    ("line 9", "turn 9", "call 9, write 2 bytes in region 256 (write-once, 16 bytes) from offset 0 on, source "
     "0000000000007000 (the lower half), whose bytes could not be read: refused by rule 22, BadSource: a byte of the "
     "source can't be read"),
    ("line 10", "turn 10", "call 9, write 2 bytes in region 256 (write-once, 16 bytes) from offset 0 on, source "
     "ffffffff800012c0 (greeting, constants) (2 bytes, 4142): accepted"),
    ("line 11", "turn 11", "delivery of vector 13, #GP, general protection, error code 17a: the gate of vector 47; "
     "RIP ffffffff80000164 (kernel_main+0x24, code)"),
    ("line 12", "turn 13", "the run ended: halted, and nothing was left to wake the processor"),
    ("line 13", None, "13 turns were taken"),
    ("line 14", None, "the root page table is frame 5 (opening root)"),
    ("line 15", None, "the trap handler is ffffffff80000110 (trap_handler, code)"))
OWNERS = (("kernel_main", "6", "46.2 %"), ("gates, body", "4", "30.8 %"), ("_start", "1", "7.7 %"),
          ("halt", "1", "7.7 %"), ("trap_handler", "1", "7.7 %"))


def lines_with(turns):
    """What is said, with the turns of those lines alone whose places are given."""
    return [f"{where}, {turn}: {said}" if turn and it in turns else f"{where}: {said}"
            for it, (where, turn, said) in enumerate(SAID)]


class Told:
    """What the tool says of a text and a trace: status, the lines before the summary, and those of the turns."""

    def __init__(self, folder, traced, text=TEXT, image=OUTER, words=()):
        (folder / "trace").write_text(traced)
        (folder / "text").write_text(text)
        said = io.StringIO()
        with contextlib.redirect_stdout(said):  # a process for each trial would take seconds more
            self.status = explain_run.main([*map(str, words), "--turns", *map(str, (
                folder / "trace", image, folder / "text"))])
        said = said.getvalue()
        lines = said.splitlines()
        self.lines = lines[:lines.index("summary:")] if "summary:" in lines else lines
        at = [number for number, it in enumerate(lines) if it.startswith("turns of the trace")]
        self.turns = lines[at[0]:] if at else []


def try_right(folder):
    told = Told(folder, WHOLE)
    compare("a whole trace", (0, lines_with(range(14))), (told.status, told.lines))
    status, said, remarks = explain("--turns", folder / "trace", OUTER, folder / "text")
    compare("a whole trace as the tool tells it", (0, lines_with(range(14)), ""),
            (status, said.splitlines()[:14], remarks))
    names = [f"{name}: {number}, {share}" for name, number, share in OWNERS]
    compare("whose the turns were", ["turns of the trace, 13 in all:", *(f"  {it}" for it in names)], told.turns)
    told = Told(folder, PART)
    compare("a part", (0, lines_with(range(2, 6))), (told.status, told.lines))
    compare("whose the part's turns were", ["turns of the trace, 4 in all:", "  kernel_main: 3, 75.0 %",
                                            "  trap_handler: 1, 25.0 %"], told.turns)
    # The two lines of the console aren't told together where the trace has the second alone.
    told = Told(folder, trace(2, STEPS[2:4], "end until\nturns 4\n"))
    compare("a part that begins in a line of the console", (0, [
        'line 1: console "h"', 'line 2, turn 2: console "\\n"', *lines_with([1])[1:]]), (told.status, told.lines))
    told = Told(folder, trace(9, STEPS[10:]))
    compare("a part to the end", (0, lines_with(range(7, 11))), (told.status, told.lines))
    told = Told(folder, trace(0, STEPS[:6], "end steps\nturns 6\n"))
    compare("a run of fewer STEPS", (0, lines_with(range(4))), (told.status, told.lines))
    told = Told(folder, trace(0, CALLS))
    compare("calls alone", (0, lines_with((1, 6, 7, 8, 10))), (told.status, told.lines))
    compare("what calls alone leave out", ["turns of the trace, 4 shown and 9 left out:", "  gates, body: 4, 100.0 %"],
            told.turns)
    told = Told(folder, trace(0, STEPS[1:], END).replace(f"{REST}\n", f"{REST}\nframe 1 {'9c' * 4096}\n"))
    compare("changes and memory", (0, lines_with(range(14))), (told.status, told.lines))
    told = Told(folder, WHOLE, "".join(TEXT.splitlines(True)[:4]))
    compare("a text that ends before", (0, lines_with(range(14))[:3]), (told.status, told.lines))
    told = Told(folder, trace(12, STEPS[13:]))
    compare("a part without events", (0, lines_with([10])), (told.status, told.lines))


def try_owners(folder):
    """Whose turns they were in an image without symbols, in the gates and outside of both."""
    (folder / "image").write_bytes(made_image(0xFFFFFFFF80000000, 5))
    strange = ["0 outer 3 0000000000400012 90 nop.64 - - 0", "1 outer 0 ffff80000004a000 90 nop.64 - - 0",
               "2 gate 0 ffffff8000001010 fa cli.64 - - 0", "3 gate 0 ffffff80000010b2 e900000000 jmp.64 - value 0",
               "4 outer 0 ffffff80000011c1 0f20c0 movfc.64 r0 - 0", "5 outer 0 ffffff80000011da f4 hlt.64 - - 0",
               "6 gate 0 ffffff800000101d 0f20c0 movfc.64 r0 - 0", "7 outer 0 ffffff8000001fff cc int3.64 - - 0",
               "8 outer 0 ffffffff80001000 90 nop.64 - - 0", "9 outer 0 ffffffff80002000 - none",
               "10 outer 0 ffffffff80001fff 90 nop.64 - - 0"]
    told = Told(folder, trace(0, strange, "end to\nturns 11\n"), "", folder / "image")
    compare("pages and parts of the gates", [
        "turns of the trace, 11 in all:", "  page ffffffff80001000 (code): 2, 18.2 %",
        "  gates, breakpoint bytes: 1, 9.1 %", "  gates, entry: 1, 9.1 %", "  gates, exit: 1, 9.1 %",
        "  gates, handler before call 1: 1, 9.1 %",
        "  gates, stubs: 1, 9.1 %", "  gates, trap gate: 1, 9.1 %", "  page 400000 (the lower half): 1, 9.1 %",
        "  page ffff80000004a000 (direct map of frame 74): 1, 9.1 %",
        "  page ffffffff80002000 (home, no segment of the image): 1, 9.1 %"], told.turns)


    # The first and the last byte of each part.
    offsets = (0, 26, 27, 28, 29, 54, 55, 63, 64, 447, 448, 473, 474, 476, 477)
    told = Told(folder, trace(0, [f"{it} gate 0 {0xFFFFFF8000001000 + offset:x} - none" for it, offset in
                                  enumerate(offsets)], "end to\nturns 15\n"), "")
    compare("parts of the gates by their ends", [
        "turns of the trace, 15 in all:", "  gates, breakpoint bytes: 3, 20.0 %",
        *(f"  gates, {it}: 2, 13.3 %" for it in ("body", "entry", "exit", "handler before call 1", "stubs",
                                                 "trap gate"))], told.turns)


def try_doubt(folder):
    """Where a part stands at several places no line gets a turn; the turns that others took may leave one place."""
    step = "outer 0 ffffffff80000140 e6e9 out.8 value r0 e9; console 61"
    text = "c 61\n" * 4 + "end halted\nturns {}\nroot 5\ntrap ffffffff80000110\n"
    part = trace(5, [f"5 {step}", f"6 {step}"], "end to\nturns 7\n")
    told = Told(folder, part, text.format(20))
    compare("three places", (0, "trace: what the trace shows stands at 3 places of the text, so no line gets its turn",
                             'lines 1 to 4: console "aaaa"'), (told.status, *told.lines[:2]))
    told = Told(folder, part, text.format(8))
    compare("two places", "trace: what the trace shows stands at 2 places of the text, so no line gets its turn",
            told.lines[0])
    told = Told(folder, trace(1, [f"1 {step}", f"2 {step}"], "end to\nturns 3\n"), text.format(4))
    compare("one place", (0, [
        'line 1: console "a"', 'lines 2 to 3, turns 1 to 2: console "aa"', 'line 4: console "a"']),
            (told.status, told.lines[:3]))


# Traces that aren't of a text's run, and why.
WRONG = (
    ("another byte", WHOLE.replace("console 21", "console 22"), TEXT,
     "line 5 of the text is 'c 21', and at turn 5 the trace has 'c 22'"),
    ("another argument", WHOLE.replace("a ffffffff80000110", "a ffffffff80000111"), TEXT,
     "line 3 of the text is 'k 1 ffffffff80000110 0 0 0 .. 0 -', and at turn 3 the trace has "
     "'k 1 ffffffff80000111 0 0 0 .. 0 -'"),
    ("another answer", WHOLE.replace("refused 22 BadSource; source", "refused 24 WrittenOnce; source"), TEXT,
     "line 9 of the text is 'k 9 100 0 7000 2 ! 22 -', and at turn 9 the trace has 'k 9 100 0 7000 2 ! 24 -'"),
    ("a source that was read", WHOLE.replace("; source unreadable", ""), TEXT,
     "line 9 of the text is 'k 9 100 0 7000 2 ! 22 -', and at turn 9 the trace has 'k 9 100 0 7000 2 .. 22 -'"),
    ("another place", WHOLE.replace("place ffffff8000010000", "place ffffff8000010010"), TEXT,
     "line 8 of the text is 'k 7 10 1 0 0 .. 256 ffffff8000010000', and at turn 8 the trace has "
     "'k 7 10 1 0 0 .. 256 ffffff8000010010'"),
    ("another RIP", WHOLE.replace("ffffffff80000160 cd2f", "ffffffff80000161 cd2f"), TEXT,
     "line 6 of the text is 'i 47 - ffffffff80000162 -', and at turn 6 the trace has "
     "'i 47 - ffffffff80000163 -'"),
    ("another CR2", WHOLE.replace("data) cr2 0000000000001000", "data) cr2 0000000000001008"), TEXT,
     "line 4 of the text is 'i 14 2 ffffffff80000150 0000000000001000', and at turn 4 the trace has "
     "'i 14 2 ffffffff80000150 0000000000001008'"),
    ("a line more", WHOLE, TEXT.replace("c 0a\n", ""),
     "line 2 of the text is 'k 1 ffffffff80000110 0 0 0 .. 0 -', and at turn 2 the trace has 'c 0a'"),
    ("a last line more", WHOLE, TEXT.replace("i 13 17a ffffffff80000164 -\n", ""),
     "at turn 11 the trace has 'i 13 17a ffffffff80000164 -', and the text has no line for it"),
    ("a last line less", WHOLE.replace("; deliver 13 #GP code 17a (selector 47 idt)", ""), TEXT,
     "line 11 of the text is 'i 13 17a ffffffff80000164 -', and the trace doesn't have it"),
    ("more turns", WHOLE.replace("turns 13", "turns 14"), TEXT,
     "the trace ends behind 14 turns, and the text's run behind 13"),
    ("a run that halts before", WHOLE, TEXT.replace("turns 13", "turns 14"),
     "the trace ends behind 13 turns, and the text's run behind 14"),
    ("a part of another run", PART.replace("console 21", "console 22"), TEXT,
     "what the trace shows stands nowhere in the text"),
    # Two lines of the text come before, and each took a turn.
    ("a part that comes too early", trace(1, [f"1{STEPS[3][1:]}"], "end to\nturns 2\n"), TEXT,
     "what the trace shows stands nowhere in the text"),
    ("a part and a text without end", PART, "c 68\n",
     "the text has no end, so that the place of a part of the run isn't told in it"))


def try_wrong(folder):
    """It is said first that the trace isn't of the text's run, no line gets a turn, and the status is 1."""
    for name, traced, text, wanted in WRONG:
        told = Told(folder, traced, text)
        compare(name, (1, f"trace: {wanted}", []), (told.status, told.lines[0], told.turns))
        compare(f"{name}: no turns", False, any(", turn" in it for it in told.lines[1:]))


# Traces out of form, with the number of the first such line.
OUT_OF_FORM = (
    ("no state", "\n".join(STEPS), 1),
    ("a state with a zero in front", WHOLE.replace("turn 0", "turn 00", 1), 1),
    ("no lines but an empty one", "\n", 1), ("a second state", WHOLE.replace("\n0 ", "\nstate turn 0 ", 1), 2),
    ("an empty line", WHOLE.replace("\n1 ", "\n\n1 ", 1), 3),
    ("a turn that falls", WHOLE.replace("\n5 ", "\n3 "), 7), ("a turn twice", WHOLE.replace("\n5 ", "\n4 "), 7),
    ("a turn before the state", trace(5, STEPS[4:]), 2),
    ("no such state", WHOLE.replace("1 outer", "1 inner", 1), 3),
    ("ring 1", WHOLE.replace("outer 3", "outer 1"), 10),
    ("half a byte", WHOLE.replace("e6e9", "e6e", 1), 3), ("capitals", WHOLE.replace("e6e9", "E6E9", 1), 3),
    ("a byte of three digits", WHOLE.replace("console 68", "console 680"), 3),
    ("two bytes", WHOLE.replace("console 68", "console 68; console 68"), 3),
    ("a delivery without its vector", WHOLE.replace("deliver 33", "deliver"), 10),
    ("a code without its parts", WHOLE.replace(" (selector 47 idt)", ""), 14),
    ("a call without its answer", WHOLE.replace("; accepted 256", ""), 11),
    ("a call with two", WHOLE.replace("accepted 256", "accepted 256; refused 18 NoRoom"), 11),
    ("a call without an argument", WHOLE.replace(f"b {NONE} c ffff", "c ffff"), 13),
    ("another end", WHOLE.replace("end halted", "end stopped"), 16),
    ("fewer turns than steps", WHOLE.replace("turns 13", "turns 12"), 17),
    ("a line behind the end", WHOLE + "turns 13\n", 18), ("a frame behind a step", WHOLE.replace(
        "\n1 ", f"\nframe 1 {'9c' * 4096}\n1 ", 1), 3))


def try_form(folder):
    for name, traced, number in OUT_OF_FORM:
        told = Told(folder, traced)
        compare(name, (1, f"trace: line {number} of the trace is out of form", []),
                (told.status, told.lines[0], told.turns))
        compare(f"{name}: the lines", [it.split(", turn")[0] for it in lines_with(())], told.lines[1:])
    for name, traced in (("nothing", ""), ("no end", "\n".join(WHOLE.splitlines()[:-2])),
                         ("half an end", "\n".join(WHOLE.splitlines()[:-1]))):
        told = Told(folder, traced)
        compare(name, (1, "trace: the trace doesn't end with its lines end and turns"), (told.status, told.lines[0]))


def try_page(folder):
    told = Told(folder, WHOLE, words=("--html", folder / "page"))
    compare("said beside a page", (0, lines_with(range(14))), (told.status, told.lines))
    tree = Tree((folder / "page").read_text(encoding="utf-8"))
    compare("the form of a page with turns", [], list(form_faults(tree)))
    compare("the page's table of turns", [["Whose", "Turns", "Share"], *map(list, OWNERS)],
            rows_of(tree, "Turns of the trace, 13 in all"))
    compare("the page's events", [f"{where}, {turn}" for where, turn, _ in SAID[:10]],
            [next(it.all("span", "where")).words() for it in section_of(tree, "events").all("li")])
    compare("the page's titles", [f"{turn}: {said}"[:400] for _, turn, said in SAID[:10]],
            [it.attributes["title"] for it in section_of(tree, "run").all("a")])
    compare("what the page says of turns", True, "Each event has the turn at which it came" in
            section_of(tree, "run").words())
    alike = [f"{it} outer 0 ffffffff80000140 - interrupt 33; deliver 33 interrupt" for it in range(9)]
    Told(folder, trace(0, alike, "end steps\nturns 9\n"), "i 33 - ffffffff80000140 -\n" * 9 + "end steps\nturns 9\n",
         words=("--html", folder / "page"))
    tree = Tree((folder / "page").read_text(encoding="utf-8"))
    compare("a group's turns", True, list_of(tree, "events")[0].startswith("lines 1 to 9, turns 0 to 8: vector 33, 9 "))
    (folder / "page").write_text("kept")
    Told(folder, WHOLE.replace("console 21", "console 22"), words=("--html", folder / "page"))
    compare("a trace that isn't the text's: the page stays", "kept", (folder / "page").read_text())
    Told(folder, WHOLE)
    name = folder / "trace"
    compare("a page over the trace", (2, "", f"explain: {name}: it would be written over, and was read\n{USAGE}"),
            explain("--html", name, "--turns", name, OUTER, folder / "text"))


def try_all():
    with tempfile.TemporaryDirectory() as name:
        folder = pathlib.Path(name)
        for trial in (try_right, try_owners, try_doubt, try_wrong, try_form, try_page):
            trial(folder)
