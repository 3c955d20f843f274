"""All cases."""
from control import control_cases
from data import data_cases
from opcode_rows import key_of
from paging import paging_cases
from system import system_cases

class Chosen:
    """Takes the first row of each kind: of the table's row, the width, the operand's form, and the vector; where it
    takes no `faults`, the first one without."""

    def __init__(self, faults):
        self.faults, self.found = faults, set()

    def __call__(self, turn):
        key = key_of(turn), turn.vector
        if key in self.found or turn.vector is not None and not self.faults:
            return False
        self.found.add(key)
        return True


def all_cases():
    """Each case with what says of its turn whether the row is wanted."""
    for cases in (system_cases, paging_cases, control_cases):
        for case in cases():
            yield case, lambda turn: True
    for data, faults in ((0x11, True), (0x14, False)):
        chosen = Chosen(faults)
        for code, case in data_cases(data):
            yield case, chosen
