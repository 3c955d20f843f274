"""Runs the scan and grep in turn on each of some files and prints medians, ratios and peak memory."""
import os
import statistics
import subprocess
import sys
import tempfile
import time

ROUNDS, NKRUN, IMAGES = int(sys.argv[1]), os.path.abspath(sys.argv[2]), sys.argv[3:]
PATTERN = (r"\x0f(?:[\x22\x23][\x00-\xff]|\x30|\x01(?:[\x10-\x1f\x50-\x5f\x90-\x9f]|[\x30-\x37\x70-\x77\xb0-\xb7\xf0-\xf7])"
           r"|\x00[\x10-\x1f\x50-\x5f\x90-\x9f\xd0-\xdf])")


def timed(words):
    """Elapsed and processor seconds of one run. grep's status is 1 where nothing is found."""
    begin = time.perf_counter()
    process = subprocess.Popen(words, stdout=subprocess.DEVNULL, env={**os.environ, "LC_ALL": "C"})
    _, status, usage = os.wait4(process.pid, 0)
    if os.waitstatus_to_exitcode(status) > 1:
        sys.exit(f"{' '.join(words)}: status {os.waitstatus_to_exitcode(status)}")
    return time.perf_counter() - begin, usage.ru_utime + usage.ru_stime


def peak(words):
    """The peak resident KiB of one run: a program that python starts has python's own for its least one."""
    with tempfile.NamedTemporaryFile("r") as told:
        subprocess.run(["/usr/bin/time", "-q", "-o", told.name, "-f", "%M", *words], stdout=subprocess.DEVNULL,
                       env={**os.environ, "LC_ALL": "C"}, check=False)
        return int(told.read())


def show(image, runs, peaks):
    """A row for each of the two times: both medians, and the scan's rate as a part of grep's."""
    size = os.path.getsize(image) / 2 ** 20
    for i, what in enumerate(("elapsed", "processor time")):
        scan, grep = (statistics.median(run[i] for run in runs[name]) for name in ("scan", "grep"))
        print(f"{size:4.0f} MiB, {what}: scan {1000 * scan:.1f} ms, grep {1000 * grep:.1f} ms; the scan's rate is {grep / scan:.2f} of grep's")
    print(f"{size:4.0f} MiB, peak memory: scan {max(peaks['scan'])} KiB, grep {max(peaks['grep'])} KiB")


def main():
    print(f"medians of {ROUNDS} rounds, in turn; the greatest of as many peaks")
    for image in IMAGES:
        commands = {"scan": [NKRUN, "scan", image], "grep": ["grep", "-cUaP", PATTERN, image]}
        runs, peaks = {name: [] for name in commands}, {name: [] for name in commands}
        for _ in range(ROUNDS):
            for name, words in commands.items():
                runs[name].append(timed(words))
        for _ in range(ROUNDS):
            for name, words in commands.items():
                peaks[name].append(peak(words))
        show(image, runs, peaks)


main()
