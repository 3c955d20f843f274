"""Runs a case on QEMU."""
import base
from qemu import GENERAL, Halted, Qemu
from rows import BASE, CONTROL, State, changed_ranges

SIZE = base.FRAME * base.FRAMES
# Bit 4 of CR0, which is always set on a processor, and which the model doesn't have.
ET = 0x10


class LostMode(Exception):
    """The turn left 64-bit mode."""


class Recorder:
    """QEMU over the base memory."""

    def __init__(self):
        opening = bytearray(BASE)
        found = base.descriptors()
        opening[0x800:0x800 + len(found)] = found
        self.qemu = Qemu(opening)
        self.note_base()

    def note_base(self):
        """LTR changed the descriptor of the task-state segment."""
        self.base = self.qemu.memory[:SIZE]
        self.registers = self.qemu.registers()

    def restart(self):
        self.qemu.start()
        self.note_base()

    def close(self):
        self.qemu.stop()

    def set_up(self, case):
        # the base's tables first, by which selectors are looked up; and all translations are dropped
        packets = []
        for name, value in (("cr0", base.CR0 | ET), ("cr4", base.CR4), ("cr3", base.ROOT)):
            packets += self.qemu.putting_register(name, value)
        for place, data in case.overlays():
            packets += self.qemu.putting_memory(place, bytes(data))
        values = dict(self.registers)
        values |= {name: case.register(number) for number, name in enumerate(GENERAL)}
        values |= {name: case.read(key) for key, (name, _) in CONTROL.items()}
        values |= {"rip": case.rip, "flags": case.flags, "cs": base.CODE[case.level], "ss": case.stack}
        values["cr0"] |= ET
        self.qemu.must_all(packets + self.qemu.putting_registers(values))

    def put_back(self, memory):
        packets = []
        for begin, end in changed_ranges(self.base, memory):
            packets += self.qemu.putting_memory(begin, self.base[begin:end])
        self.qemu.must_all(packets)

    def run(self, case):
        """The memory before, and the state after."""
        self.set_up(case)
        before = self.qemu.memory[:SIZE]
        halted = False
        try:
            values = self.qemu.step()
        except Halted:
            halted, values = True, self.qemu.registers()
        if values["efer"] != base.EFER or values["cs"] not in base.CODE.values():
            self.restart()
            raise LostMode
        after = self.qemu.memory[:SIZE]
        self.put_back(after)
        if halted:
            self.restart()
        values["cr0"] &= ~ET
        control = {key: values[name] for key, (name, _) in CONTROL.items()}
        return before, State(values["cs"] & 3, values["rip"], [values[name] for name in GENERAL], values["flags"],
                             values["ss"], control, halted, after)
