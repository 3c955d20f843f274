"""Runs programs on nkrun, on this machine's processor and on QEMU in turn, compares their answers, and prints rates by
processor time."""
import os
import pathlib
import re
import shutil
import statistics
import struct
import subprocess
import sys

ROUNDS, SECONDS, NKRUN, WORK = int(sys.argv[1]), float(sys.argv[2]), sys.argv[3], pathlib.Path(sys.argv[4])
PROGRAMS = [name for name in ("zlib", "lz4", "sha256", "pforth") if (WORK / name).is_dir()]
TEXTS = 4                               # a program goes through so many texts again and again
MOST_TURNS = 4294967296
FRAMES = 2048


def one_instruction_a_block():
    """A property of the accelerator since QEMU 8.1, an option before."""
    options = subprocess.run(["qemu-system-x86_64", "-help"], capture_output=True, text=True).stdout
    return ["-accel", "tcg,one-insn-per-tb=on"] if "one-insn-per-tb" in options else ["-accel", "tcg", "-singlestep"]


def runners():
    """Who is there: the form of a program that each takes, and its words."""
    found = {"nkrun": ("image", [NKRUN, "run", "image", "/dev/null", "/dev/null", str(MOST_TURNS), str(FRAMES)]),
             "native": ("native", ["./native"])}
    if shutil.which("qemu-system-x86_64"):
        words = ["qemu-system-x86_64", *one_instruction_a_block(), "-m", "64", "-bios", "rom", "-nodefaults",
                 "-display", "none", "-debugcon", "stdio", "-device", "isa-debug-exit,iobase=0xf4,iosize=1"]
        found["QEMU"] = "rom", words
    return found


def timed(words):
    """Processor seconds of these words, and their text."""
    with open(WORK / "text", "w") as output:
        process = subprocess.Popen(["timeout", "600", *words], cwd=WORK, stdin=subprocess.DEVNULL, stdout=output,
                                   stderr=subprocess.DEVNULL)
        usage = os.wait4(process.pid, 0)[2]
    return usage.ru_utime + usage.ru_stime, (WORK / "text").read_text("latin-1")


def run(program, rounds, form, words):
    """Processor seconds, the answer, and the number of turns where it is told."""
    code = (WORK / program / form).read_bytes().replace(b"ITERATED", struct.pack("<Q", rounds))
    (WORK / form).write_bytes(code)
    (WORK / form).chmod(0o755)
    seconds, text = timed(words)
    if form != "image":
        return seconds, text, None
    told = re.search(r"^end halted\nturns (\d+)$", text, re.M)
    answer = "".join(chr(int(byte, 16)) for byte in re.findall(r"^c (..)$", text, re.M))
    return seconds, answer, int(told[1]) if told else 0


RUNNERS = runners()


def checked(program, rounds, name):
    """Processor seconds and turns of a run whose answer is this machine's own processor's, and no failure."""
    right = run(program, rounds, *RUNNERS["native"])[1]
    seconds, answer, turns = run(program, rounds, *RUNNERS[name])
    if not re.fullmatch("[a-p]{16}", right) or right == 16 * "a" or answer != right:
        sys.exit(f"{name}, {program}, {rounds} rounds: the answer is {answer or 'none'}, natively {right or 'none'}")
    return seconds, turns


def turns_of_texts(program):
    """The turns of the rounds over all texts, once: as many the second time as the third."""
    first, second, third = (checked(program, times * TEXTS, "nkrun")[1] for times in (1, 2, 3))
    if third - second != second - first:
        sys.exit(f"{program}: {first}, {second} and {third} turns")
    return second - first


def times_for(program, name):
    """As often as it takes SECONDS to go through the texts."""
    times, seconds = 1, 0
    while seconds < SECONDS / 8:
        times *= 4
        seconds = checked(program, times * TEXTS, name)[0]
    return max(2, int(times * SECONDS / seconds))


def measured(program, times, name):
    """Processor seconds a time beyond the first."""
    start = checked(program, TEXTS, name)[0]
    return (checked(program, times * TEXTS, name)[0] - start) / (times - 1)


def main():
    pairs = [(program, name) for program in PROGRAMS for name in RUNNERS]
    turns = {program: turns_of_texts(program) for program in PROGRAMS}
    times = {pair: times_for(*pair) for pair in pairs}
    seconds = {pair: [] for pair in pairs}
    for _ in range(ROUNDS):
        for program, name in pairs:
            seconds[program, name].append(measured(program, times[program, name], name))
    print(f"medians of {ROUNDS} rounds, in turn; million instructions a second of processor time, the start taken off")
    print(f"{'program':8} {'by':7} {'turns a text':>13} {'texts':>7} {'rate':>9} {'nkrun, of it':>13}")
    for program, name in pairs:
        rate = turns[program] / statistics.median(seconds[program, name]) / 1e6
        own = turns[program] / statistics.median(seconds[program, "nkrun"]) / 1e6
        print(f"{program:8} {name:7} {turns[program] / TEXTS:13,.0f} {times[program, name] * TEXTS:7,} {rate:9.2f} "
              f"{own / rate:13.4f}")


main()
