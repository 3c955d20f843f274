"""What is left out, each rule with its name; README.md gives the reasons."""
import pathlib
import sys

HERE = pathlib.Path(__file__).resolve().parent
sys.path.insert(0, str(HERE.parents[1] / "examples" / "opcodes"))

import base
from base import FRAME, RBP, RDX, RSP
from paging import PAGE, TARGET
from reader import Memory, front, read
from rows import BASE, PLACES

UD, REFUSED, PAGE_FAULT = 6, 13, 14
# Bits of a page fault's code.
WRITE, FETCH = 2, 0x10
ZERO = 0x40
# Ports of the machine's input, and of QEMU's PC.
INPUT, DEVICES = (0xEA, 0xEB), range(0xE0)
LOCKABLE = "ADD OR ADC SBB AND SUB XOR NOT NEG INC DEC XCHG XADD CMPXCHG BTS BTR BTC".split()
READ_AND_WRITTEN = LOCKABLE + "ROL ROR SHL SHR SAR".split()
NEAR = "J JMP CALL RET LOOP LOOPE LOOPNE JRCXZ".split()
BY_STACK = "PUSH POP PUSHFQ POPFQ CALL RET LEAVE IRETQ".split()
PAIRS = {0: [(8, 0x10), (8, 0), (0x1B, 0x23)], 3: [(0x1B, 0x23)]}
# Bits of CR0 and CR4 that the model keeps.
KEPT = {0: 0xE0010001, 4: 0x100020}


def is_canonical(address):
    return not 2 ** 47 <= address < 2 ** 64 - 2 ** 47


# At CPL 0 these change what a row doesn't show, or are no instruction of the profile.
SYSTEM = "LIDT WRMSR MOVTD LLDT LTR LGDT LMSW".split()


def fetched(case, memory):
    """The bytes of a case's instruction; `memory` is what stands before."""
    found = bytearray()
    for at in range(case.rip, case.rip + 15):
        frame = PLACES.get(at >> 12, TARGET if at >> 12 == PAGE >> 12 else None)
        if frame is None:
            break
        found.append(memory[frame * FRAME + at % FRAME])
    return bytes(found)


def unasked(case):
    """The name of the rule by which a case isn't run at all."""
    memory = bytearray(BASE)
    for place, data in case.overlays():
        memory[place:place + len(data)] = data
    code = fetched(case, memory)
    instr = read(code) if code else "Short"
    if not isinstance(instr, str) and case.level == 0 and instr.op in SYSTEM:
        return "system instructions at CPL 0 that the profile has not, or whose effect a row doesn't show"
    return None


def is_user(address):
    """Whether an address lies in a user's page of the base."""
    return bool(base.PAGES.get(address >> 12, (0, 0))[1] & base.U)


class Turn:
    """A case and what became of it, with what rules ask of both."""

    def __init__(self, case, before, after):
        self.case, self.before, self.after = case, before, after
        self.code = fetched(case, before)
        found = read(self.code) if self.code else "Short"
        self.instr = None if isinstance(found, str) else found
        self.front = front(self.code)
        self.vector = self.delivered()
        self.error = self.pushed(0) if self.vector is not None and after.general[RSP] % 16 == 0 else None

    def delivered(self):
        """The vector, where the turn ended at a gate's offset, on the stack that it leads to."""
        top = int.from_bytes(self.before[0x424:0x42C], "little") & ~15
        if self.after.general[RSP] not in (top - 40, top - 48) or self.after.level != 0:
            return None
        for vector in range(base.GATES):
            gate = self.before[16 * vector:16 * vector + 16]
            if int.from_bytes(gate[0:2] + gate[6:12], "little") == self.after.rip:
                return vector
        return None

    def place(self, offset):
        """Where what was pushed stands in memory."""
        address = self.after.general[RSP] + offset
        return PLACES[address >> 12] * FRAME + address % FRAME

    def pushed(self, offset):
        place = self.place(offset)
        return int.from_bytes(self.after.memory[place:place + 8], "little")

    def operands(self):
        return [it for it in (self.instr.to, self.instr.source) if isinstance(it, Memory)]


def left_mode(turn):
    """MOV to CR0 or CR4 whose value the manual refuses, or the profile, and QEMU doesn't; or keeps other bits of."""
    instr = turn.instr
    if instr is None or instr.op != "MOVTC" or turn.case.level or instr.value not in (0, 3, 4):
        return None
    value = turn.case.register(instr.source[1])
    if turn.vector is not None:
        return None
    if instr.value == 0:
        if value >> 32:
            return "CR0 with a bit of 63:32"
        if value & 0x80000001 != 0x80000001 or value & 0x60000000 == 0x20000000:
            return "CR0 that is inconsistent"
        return "CR0 with bits that the profile loses" if value & ~KEPT[0] else None
    if instr.value == 3:
        return "CR3 with bits of 11:0, or of a root outside memory" if value % FRAME or value >= 64 * FRAME else None
    return "CR4 that the profile refuses" if value & ~KEPT[4] or not value & 0x20 else None


def stack_outside(turn):
    """Whether an address that isn't canonical is one of the stack's."""
    if turn.vector != REFUSED or turn.error != 0 or turn.instr is None:
        return False
    sp = turn.case.register(RSP)
    if turn.instr.op in BY_STACK and any(not is_canonical((sp + at) % 2 ** 64) for at in (-8, -1, 0, 7, 39)):
        return True
    if turn.instr.op == "LEAVE":
        return True
    for place in turn.operands():
        if place.base in (RSP, RBP):
            index = 0 if place.index is None else turn.case.register(place.index) * place.scale
            address = (turn.case.register(place.base) + index + place.disp) % 2 ** 64
            if any(not is_canonical((address + at) % 2 ** 64) for at in range(-8, 9)):
                return True
    return False


def stack_rule(turn):
    return "#SS, which QEMU raises as #GP" if stack_outside(turn) else None


def target_rule(turn):
    if not is_canonical(turn.after.rip):
        return "a target that isn't canonical, which QEMU refuses at the fetch"
    return None


def read_first_rule(turn):
    instr = turn.instr
    if turn.vector != PAGE_FAULT or instr is None or turn.error is None or turn.error & (WRITE | FETCH):
        return None
    if instr.op in READ_AND_WRITTEN:
        place = instr.source if instr.op == "XCHG" and isinstance(instr.source, Memory) else instr.to
        if isinstance(place, Memory):
            return "an operand that is read and written, whose refused check QEMU tells as a read"
    return None


def lock_rule(turn):
    if not turn.front.lock or turn.instr is None or turn.vector == UD:
        return None
    if turn.vector == PAGE_FAULT and turn.error is not None and turn.error & FETCH:
        return None
    if turn.instr.op not in LOCKABLE or not isinstance(turn.instr.to, Memory):
        return "LOCK where it may not stand, which QEMU overlooks"
    return None


def spelling_rule(turn):
    if turn.instr is None and turn.vector not in (UD, PAGE_FAULT, REFUSED):
        return "no instruction, which QEMU takes for one"
    if turn.code.startswith(b"\xF3\x90"):
        return "PAUSE, at which QEMU's step doesn't end"
    if turn.instr and turn.instr.op in ("PUSHFQ", "POPFQ", "LEAVE") and turn.front.narrow and turn.front.size != 64:
        return "66 before PUSHFQ, POPFQ and LEAVE"
    if turn.instr and turn.instr.op in NEAR and turn.front.narrow and turn.front.size != 64:
        return "66 before near branches, which QEMU takes as AMD's processors do"
    return None


def edge_rule(turn):
    if turn.vector == PAGE_FAULT and turn.error is not None and not turn.error & FETCH and \
            2 ** 47 - 8 < turn.after.control["c2"] < 2 ** 47:
        return "an access that begins at a canonical address and ends at one that isn't"
    return None


def port_rule(turn):
    instr = turn.instr
    if instr and instr.op == "IN" and turn.vector is None:
        port = turn.case.register(RDX) % 2 ** 16 if instr.source == ("reg", 2) else instr.value
        return "IN from the input, or from a device of QEMU's" if port in INPUT or port in DEVICES else None
    return None


def scan_rule(turn):
    instr = turn.instr
    if instr and instr.op in ("BSF", "BSR") and instr.width == 32 and turn.vector is None and turn.after.flags & ZERO:
        return "BSF and BSR of 0 at 32 bits, which the manual leaves open"
    return None


def control_rule(turn):
    instr = turn.instr
    if instr is None or instr.op not in ("MOVFC", "MOVTC"):
        return None
    if instr.value == 8:
        return "CR8"
    if instr.value not in (0, 2, 3, 4) and turn.case.level:
        return "a control register that isn't there, at CPL 3: QEMU looks at the CPL first"
    return None


def return_rule(turn):
    if turn.instr is None or turn.instr.op != "IRETQ":
        return None
    rsp = turn.case.register(RSP)
    if turn.case.level == 3 and not all(is_user(rsp + at) for at in (0, 39)):
        return "IRETQ at CPL 3 by a stack that isn't a user's, which QEMU reads as the supervisor"
    if turn.vector is None:
        code = (8, 0x1B)[turn.after.level == 3]
        if (code, turn.after.stack) not in PAIRS[turn.case.level]:
            return "IRETQ by selectors that the profile refuses"
    return None


def has_other_code(turn):
    """Whether QEMU's error code is another one: IRETQ is refused with a selector, where the profile has 0, and INT with
    16n + 2."""
    if turn.vector != REFUSED or turn.instr is None or turn.error is None:
        return False
    number = {"INT": turn.instr.value, "INT3": 3}.get(turn.instr.op)
    if number is not None:
        return turn.error != 8 * number + 2
    return turn.instr.op == "IRETQ" and turn.error != 0


RULES = [left_mode, stack_rule, target_rule, read_first_rule, lock_rule, spelling_rule, edge_rule, port_rule, scan_rule,
         control_rule, return_rule]


def left_out(turn):
    """The name of the first rule by which a row isn't written."""
    return next((name for name in (rule(turn) for rule in RULES) if name), None)
