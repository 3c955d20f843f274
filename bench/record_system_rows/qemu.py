"""QEMU, seen through its debugger's protocol: its state is set, it takes one step, and its state is read.

Code that QEMU has translated stays so where memory is written behind its back. So memory is read through the file that
QEMU shares, and written by the debugger, which drops what was translated from there."""
import mmap
import pathlib
import select
import socket
import subprocess
import tempfile
import time

import base

HERE = pathlib.Path(__file__).resolve().parent
# Past the ROM's own tables; the file has holes.
MEMORY = 0x10100000
READY_WITHIN, STEP_WITHIN, CHUNK = 30, 3, 1000
ARGUMENTS = """-M pc,memory-backend=frames -accel tcg -cpu Nehalem-v1,+smep -nodefaults -display none -no-reboot
-action shutdown=pause -S""".split()

# The debugger's registers in its order, with their widths in bytes.
ORDER = "ax bx cx dx si di bp sp r8 r9 r10 r11 r12 r13 r14 r15 rip".split()
WIDTHS = [(name, 8) for name in ORDER] + [(name, 4) for name in "flags cs ss ds es fs gs".split()] + \
    [(name, 8) for name in "fs_base gs_base kernel_gs cr0 cr2 cr3 cr4 cr8 efer".split()]
# The general registers in the processor's order.
GENERAL = "ax cx dx bx sp bp si di r8 r9 r10 r11 r12 r13 r14 r15".split()


class Halted(Exception):
    """The step didn't end: the processor waits for an interrupt."""


class ShutDown(Exception):
    """A delivery failed, and the processor gave up."""


def make_rom(folder):
    """The ROM of rom.s, as a file."""
    subprocess.run(["as", "--64", "-o", folder / "rom.o", HERE / "rom.s"], check=True)
    subprocess.run(["ld", "-m", "elf_x86_64", "-Ttext", "0", "-e", "0", "--oformat", "binary", "-o", folder / "rom",
                    folder / "rom.o"], check=True)
    return folder / "rom"


class Qemu:
    """QEMU with the ROM, ready in 64-bit mode; `opening` is what stands in memory from place 0 on before."""

    def __init__(self, opening):
        self.opening = bytes(opening)
        self.folder = tempfile.TemporaryDirectory()
        self.rom = make_rom(pathlib.Path(self.folder.name))
        self.process = None
        self.start()

    def start(self):
        """Starts QEMU anew, as after a step that doesn't end."""
        self.stop()
        folder = pathlib.Path(self.folder.name)
        file, port = folder / "memory", folder / "port"
        file.unlink(missing_ok=True)
        port.unlink(missing_ok=True)
        with file.open("wb") as stream:
            stream.write(self.opening)
            stream.truncate(MEMORY)
        with file.open("rb") as stream:
            self.memory = mmap.mmap(stream.fileno(), MEMORY, access=mmap.ACCESS_READ)
        frames = f"memory-backend-file,id=frames,size={MEMORY},mem-path={file},share=on"
        self.process = subprocess.Popen(
            ["qemu-system-x86_64", *ARGUMENTS, "-m", f"size={MEMORY}b", "-object", frames, "-bios", str(self.rom),
             "-gdb", f"unix:{port},server=on,wait=off"], stdin=subprocess.DEVNULL, stderr=subprocess.DEVNULL)
        self.connect(port)
        self.bring_up()

    def connect(self, port):
        end = time.monotonic() + READY_WITHIN
        self.socket = socket.socket(socket.AF_UNIX)
        while True:
            try:
                self.socket.connect(str(port))
                break
            except OSError:
                if time.monotonic() > end:
                    raise
                time.sleep(0.01)
        self.received = b""
        self.ask("qSupported:xmlRegisters=i386")
        self.ask("qXfer:features:read:target.xml:0,ffb")
        self.must_all(["Qqemu.PhyMemMode:1"])

    def bring_up(self):
        """Lets the ROM run until it is ready."""
        end = time.monotonic() + READY_WITHIN
        while True:
            self.send("c")
            time.sleep(0.02)
            self.socket.sendall(b"\x03")
            self.take()
            here = self.registers()
            if here["efer"] == base.EFER and self.code_at(here["rip"]) == b"\xEB\xFE":
                return
            if time.monotonic() > end:
                raise ShutDown(f"the ROM stands at {here['rip']:x}")

    def code_at(self, address):
        rom = self.rom.read_bytes()
        return rom[address - 0xFFFF0000:][:2] if address >= 0xFFFF0000 else b""

    def stop(self):
        if self.process:
            self.socket.close()
            self.process.kill()
            self.process.wait()

    # The protocol.

    def send(self, text):
        data = text.encode()
        self.socket.sendall(b"$" + data + b"#%02x" % (sum(data) % 256))

    def take(self, within=READY_WITHIN):
        """The next packet, or None where none comes in time."""
        end = time.monotonic() + within
        while True:
            begin = self.received.find(b"$")
            close = self.received.find(b"#", begin) if begin >= 0 else -1
            if 0 <= close <= len(self.received) - 3:
                packet = self.received[begin + 1:close]
                self.received = self.received[close + 3:]
                # not acknowledged: a byte that comes while the processor runs would stop it
                return packet.decode("latin-1")
            left = end - time.monotonic()
            if left <= 0 or not select.select([self.socket], [], [], left)[0]:
                return None
            found = self.socket.recv(65536)
            if not found:
                raise ShutDown("QEMU ended")
            self.received += found

    def ask(self, text):
        self.send(text)
        return self.take()

    def must_all(self, texts):
        """Sends packets at once, each of which is to be answered by OK."""
        for text in texts:
            self.send(text)
        for text in texts:
            answer = self.take()
            if answer != "OK":
                raise RuntimeError(f"QEMU answers {text[:40]} by {answer}")

    # The state.

    def registers(self):
        data = bytes.fromhex(self.ask("g").replace("x", "0"))
        found, at = {}, 0
        for name, width in WIDTHS:
            found[name] = int.from_bytes(data[at:at + width], "little")
            at += width
        self.rest = data[at:]
        return found

    def putting_registers(self, values):
        data = b"".join(values[name].to_bytes(width, "little") for name, width in WIDTHS)
        return ["G" + (data + self.rest).hex()]

    @staticmethod
    def putting_register(name, value):
        """The packet that sets one register."""
        names = [it for it, _ in WIDTHS]
        return [f"P{names.index(name):x}={value.to_bytes(8, 'little').hex()}"]

    @staticmethod
    def putting_memory(place, data):
        parts = [(place + at, data[at:at + CHUNK]) for at in range(0, len(data), CHUNK)]
        return [f"M{at:x},{len(part):x}:{part.hex()}" for at, part in parts]

    def step(self):
        """One instruction, or its delivery; the answer is the registers after it."""
        self.send("s")
        answer = self.take(STEP_WITHIN)
        if answer is None:
            self.socket.sendall(b"\x03")
            if self.take() is None:
                raise ShutDown("no answer")
            raise Halted
        if not answer.startswith("T05"):
            raise ShutDown(answer)
        return self.registers()
