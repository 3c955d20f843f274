"""The text of an instruction by docs/FORMATS.md alone. Instructions are those of ../opcodes/reader.py."""
import pathlib
import sys

sys.path.insert(0, str(pathlib.Path(__file__).resolve().parents[1] / "opcodes"))

from reader import Memory

REPEATS = {"No": "", "WhileEqual": "repe ", "WhileNot": "repne "}


def register_text(number):
    return "-" if number is None else f"r{number}"


def place_text(place):
    if place is None:
        return "-"
    if isinstance(place, Memory):
        base = "rip" if place.rip else register_text(place.base)
        return f"[{base},{register_text(place.index)},{place.scale},{place.disp:x}]"
    return {"reg": "r", "high": "h", "value": "value"}[place[0]] + "".join(map(str, place[1:]))


def text_of(instr):
    name = instr.op.lower() + ("" if instr.condition is None else f"{instr.condition:x}")
    return (f"{'lock ' * instr.lock}{REPEATS[instr.rep]}{name}.{instr.width} "
            f"{place_text(instr.to)} {place_text(instr.source)} {instr.value:x}")
