"""Runs loops on nkrun and its peers in turn, and a made image on nkrun, checks what each computed, and prints rates by
processor time."""
import os
import pathlib
import re
import shutil
import statistics
import struct
import subprocess
import sys

ROUNDS, SECONDS, NKRUN, WORK = int(sys.argv[1]), float(sys.argv[2]), sys.argv[3], pathlib.Path(sys.argv[4])
EARLIER = sys.argv[5:]                  # another nkrun, or none
OWN = ("nkrun", "earlier")              # what must tell RAX; a peer that tells none is left out
LOOPS = {"registers": 5, "mix": 20, "user": 1}  # instructions an iteration
TINY = 1000                             # iterations of the run that measures the start
START_LIMIT, LIMIT = 60, 600            # seconds after which a run with TINY iterations is ended, and any other
MOST_TURNS = 4294967296
LEAST_MADE, MOST_MADE = 1, 100          # numbers of made images: the first measures the start
BOCHSRC = """display_library: term
romimage: file=rom
log: bochs.log
cpu: model=corei7_haswell_4770, ips=100000000
clock: sync=none
port_e9_hack: enabled=1
panic: action=fatal
"""


class Untold(Exception):
    """A program ended and didn't tell RAX."""


def number(pattern, text):
    found = re.search(pattern, text, re.M)
    return int(found[1]) if found else 0


def letters(text):
    """RAX as a loop tells it."""
    return "".join(re.findall("[a-p]{16}", text))


def native_told(text):
    rax = struct.unpack("<Q", text.encode("latin-1"))[0]
    return "".join(chr(ord("a") + int(digit, 16)) for digit in f"{rax:016x}"), None


def nkrun_told(text):
    console = "".join(chr(int(byte, 16)) for byte in re.findall(r"^c (..)$", text, re.M))
    return letters(console), number(r"^end halted\nturns (\d+)$", text)


def bochs_told(text):
    """Its clock ticks once an instruction."""
    log = WORK / "bochs.log"            # none where it ended before it read its options
    return letters(text), number(r"^(\d+)p.*Shutdown port", log.read_text("latin-1") if log.exists() else "")


def one_instruction_a_block():
    """A property of the accelerator since QEMU 8.1, an option before."""
    options = subprocess.run(["qemu-system-x86_64", "-help"], capture_output=True, text=True).stdout
    return ["-accel", "tcg,one-insn-per-tb=on"] if "one-insn-per-tb" in options else ["-accel", "tcg", "-singlestep"]


def programs():
    """The programs that are there: the form of a loop that each takes, its words, and what its text tells: RAX, and the
    number of instructions where it counts them."""
    found = {}
    for name, program in zip(("nkrun", "earlier"), (NKRUN, *EARLIER)):
        if program != "-":
            words = [os.path.abspath(program), "run", "image", "empty", "empty", str(MOST_TURNS), "512"]
            found[name] = "image", words, nkrun_told
    if shutil.which("qemu-system-x86_64"):
        for name, accelerator in ("QEMU", one_instruction_a_block()), ("QEMU as it comes", ["-accel", "tcg"]):
            words = ["qemu-system-x86_64", *accelerator, "-bios", "rom", "-nodefaults", "-display", "none",
                     "-debugcon", "stdio", "-device", "isa-debug-exit,iobase=0xf4,iosize=1"]
            found[name] = "rom", words, lambda text: (letters(text), None)
    if (WORK / "hooked_unicorn").exists():
        found["Unicorn"] = "flat", ["./hooked_unicorn"], lambda text: (letters(text), number(r"^(\d+)$", text))
    if shutil.which("bochs"):
        found["Bochs"] = "rom", ["bochs", "-q", "-f", "bochsrc"], bochs_told
    return found


def timed(words, text="text", limit=LIMIT):
    """Processor seconds of these words, whose output goes to a file."""
    with open(WORK / "go") as go, open(WORK / text, "w") as output:
        process = subprocess.Popen(["timeout", str(limit), *words], cwd=WORK, env={**os.environ, "TERM": "xterm"},
                                   stdin=go, stdout=output, stderr=subprocess.DEVNULL)
        usage = os.wait4(process.pid, 0)[2]
    return usage.ru_utime + usage.ru_stime


def run(loop, iterations, form, words, told):
    """Processor seconds, and what was told."""
    code = (WORK / loop / form).read_bytes().replace(b"ITERATED", struct.pack("<Q", iterations))
    (WORK / form).write_bytes(code)
    (WORK / form).chmod(0o755)
    seconds = timed(words, limit=START_LIMIT if iterations == TINY else LIMIT)
    return seconds, *told((WORK / "text").read_bytes().decode("latin-1"))


def checked(loop, iterations, program):
    """Processor seconds and instructions of a run that ends with the RAX of this machine's own processor."""
    right = run(loop, iterations, "native", ["./native"], native_told)[1]
    seconds, rax, instructions = run(loop, iterations, *program)
    if not rax:
        raise Untold(f"{program[1][0]}, {loop}, {iterations} iterations: RAX is untold")
    if rax != right:
        sys.exit(f"{program[1][0]}, {loop}, {iterations} iterations: RAX is {rax}, and not {right}\n"
                 + (WORK / "text").read_text("latin-1")[-500:])
    return seconds, instructions


def measured(loop, iterations, program):
    """Processor seconds of the start, and of the iterations beyond it, which have the loop's number of instructions."""
    start, few = checked(loop, TINY, program)
    whole, many = checked(loop, iterations, program)
    if many is not None and many - few != LOOPS[loop] * (iterations - TINY):
        sys.exit(f"{program[1][0]}, {loop}: {many} instructions with {iterations} iterations, {few} with {TINY}")
    return start, whole - start


def iterations_for(loop, program):
    """As many as take about SECONDS."""
    iterations, seconds = TINY, 0
    while seconds < SECONDS / 8:
        iterations *= 4
        seconds = measured(loop, iterations, program)[1]
    return min(int(iterations * SECONDS / seconds), MOST_TURNS // LOOPS[loop] - TINY)


def all_iterations(found):
    """The numbers of iterations by loop and program, without peers that don't tell RAX: standard error has a line on
    each of these."""
    iterations = {}
    for name, program in found.items():
        try:
            iterations |= {(loop, name): iterations_for(loop, program) for loop in LOOPS}
        except Untold as untold:
            if name in OWN:
                raise
            print(f"left out: {name}: {untold}", file=sys.stderr)
    return {(loop, name): iterations[loop, name] for loop in LOOPS for name in found if (loop, name) in iterations}


def made_turns(made):
    return 10_000 * made + 35


def work(made):
    """Processor seconds of the summed up run of a made image."""
    seconds = timed([os.path.abspath(NKRUN), "work", str(made)])
    turns = number(r"^end halted\nturns (\d+)$", (WORK / "text").read_text())
    if turns != made_turns(made):
        sys.exit(f"work {made}: {turns} turns")
    return seconds


def replay(journal):
    """Processor seconds of the replay of a journal of the largest made image."""
    seconds = timed([os.path.abspath(NKRUN), "replay", "made", "4096", journal])
    if not (WORK / "text").read_text().startswith("root "):
        sys.exit(f"replay of {journal}: " + (WORK / "text").read_text()[:80])
    return seconds


def keep_journal():
    """Makes the largest image and keeps the journal of its run; gives its number of calls."""
    timed([os.path.abspath(NKRUN), "make", str(MOST_MADE)], "made")
    timed([os.path.abspath(NKRUN), "run", "made", "empty", "empty", "2000000", "4096"], "journal")
    return len(re.findall(r"^k ", (WORK / "journal").read_text(), re.M))


def measured_made():
    """Processor seconds of the turns of the largest made image beyond those of the least, and of the replay of its calls
    beyond that of none."""
    start = work(LEAST_MADE)
    return work(MOST_MADE) - start, replay("journal") - replay("empty")


def tell_made(calls, times, rates):
    """The rate of a made image's turns, of the rate of plain instructions on each program, and that of its calls."""
    working, replaying = map(statistics.median, zip(*times))
    turns = made_turns(MOST_MADE) - made_turns(LEAST_MADE)
    rate = turns / working / 1e6
    print(f"work {MOST_MADE}: {turns:,} turns beyond work {LEAST_MADE} in {working:.3f} s, {rate:.2f} million a second; "
          + ", ".join(f"{rate / other:.3f} of plain instructions on {name}" for name, other in rates.items()))
    print(f"replay: {calls:,} calls in {replaying:.3f} s, {calls / replaying:,.0f} a second, "
          f"{replaying / working:.3f} of the time of their run")


def main():
    (WORK / "empty").touch()
    (WORK / "go").write_text("c\n")     # starts a Bochs that was built with its debugger
    (WORK / "bochsrc").write_text(BOCHSRC)
    found = programs()
    iterations = all_iterations(found)
    calls = keep_journal() if NKRUN != "-" else 0
    rounds, made = [], []
    for _ in range(ROUNDS):
        rounds.append([measured(loop, most, found[name]) for (loop, name), most in iterations.items()])
        made += [measured_made()] if calls else []
    print(f"medians of {ROUNDS} rounds, in turn; million instructions a second of processor time, the start taken off")
    print(f"{'loop':9} {'program':16} {'iterations':>13} {'start, s':>9} {'rate':>8} {'nkrun, of it':>13}")
    own, plain = {}, {}
    for ((loop, name), most), times in zip(iterations.items(), zip(*rounds)):
        start, seconds = map(statistics.median, zip(*times))
        rate = LOOPS[loop] * (most - TINY) / seconds / 1e6
        own.setdefault(loop, rate if name == "nkrun" else None)
        plain |= {name: rate} if loop == "user" else {}
        ratio = f"{own[loop] / rate:.3f}" if own[loop] else "-"
        print(f"{loop:9} {name:16} {most:13,} {start:9.3f} {rate:8.2f} {ratio:>13}")
    if calls:
        tell_made(calls, made, plain)


try:
    main()
except Untold as untold:
    sys.exit(str(untold))
