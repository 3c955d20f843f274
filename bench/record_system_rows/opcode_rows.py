"""Which row of the table of opcodes an instruction has, after bench/record_rows/coverage.py."""
import importlib.util
import pathlib
import sys

HERE = pathlib.Path(__file__).resolve().parent
sys.path[1:1] = [str(HERE.parent / "record_rows"), str(HERE.parents[1] / "examples" / "opcodes")]

from reader import read

# By its path, since a file here has its name.
specification = importlib.util.spec_from_file_location("user_coverage", HERE.parent / "record_rows" / "coverage.py")
user = importlib.util.module_from_spec(specification)
specification.loader.exec_module(user)


def key_of(turn):
    """The table's row, the width and the form of a turn's instruction."""
    return key_of_code(turn.code) if turn.instr else turn.code[:3]


def key_of_code(code):
    instr = read(code)
    escaped, line, in_memory = user.table_row(code)
    return escaped, line.first, line.digit, None if line.name in user.OF_NO_WIDTH else instr.width, in_memory
