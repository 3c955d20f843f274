"""Runs three commands at each number of frames and the filling of as many bytes in turn, and prints medians of processor
time, ratios, and peak memory beyond the guest's."""
import os
import statistics
import subprocess
import sys
import tempfile

ROUNDS, NKRUN, MOST, IMAGE = int(sys.argv[1]), os.path.abspath(sys.argv[2]), int(sys.argv[3]), sys.argv[4]
FRAMES = [frames for frames in (512, 1024, 2048, 4096, 8192, 16384, 32768, 65536) if frames <= MOST]
FRAME_BYTES = 4096


def commands(frames):
    """The words of each command at this number of frames."""
    return {"map": [NKRUN, "map", IMAGE, str(frames), "ffffffff80000000"],
            "run": [NKRUN, "run", IMAGE, "/dev/null", "/dev/null", "10", str(frames)],
            "replay": [NKRUN, "replay", IMAGE, str(frames), "/dev/null"]}


def timed(words):
    """Processor seconds of these words and of what they start, and the peak resident KiB of one of them."""
    with tempfile.NamedTemporaryFile("r") as peak:
        # A program that python starts has python's own peak for its least one; one that `time` starts hasn't.
        process = subprocess.Popen(["/usr/bin/time", "-o", peak.name, "-f", "%M", *words], stdout=subprocess.DEVNULL)
        _, status, usage = os.wait4(process.pid, 0)
        if status:
            sys.exit(f"{' '.join(words)}: status {os.waitstatus_to_exitcode(status)}")
        return usage.ru_utime + usage.ru_stime, int(peak.read())


def filled(frames):
    """Processor seconds of the filling of as many bytes."""
    return timed(["sh", "-c", f"head -c {FRAME_BYTES * frames} /dev/zero | tail -c 1"])[0]


def show(frames, fills, runs):
    """A row: the filling's time; of each command its time, that of the filling's, and the KiB beyond the guest's."""
    fill = statistics.median(fills)
    row = f"{frames:6} {FRAME_BYTES * frames / 2 ** 20:5.0f} {1000 * fill:8.1f} "
    for made in runs.values():
        seconds = statistics.median(time for time, _ in made)
        beyond = max(peak for _, peak in made) - FRAME_BYTES * frames // 1024
        row += f" |{1000 * seconds:7.1f} {seconds / fill:6.2f} {beyond:6}"
    print(row)
    return {name: statistics.median(time for time, _ in made) for name, made in runs.items()}


def main():
    fills = {frames: [] for frames in FRAMES}
    runs = {frames: {name: [] for name in commands(frames)} for frames in FRAMES}
    for _ in range(ROUNDS):
        for frames in FRAMES:
            fills[frames].append(filled(frames))
            for name, words in commands(frames).items():
                runs[frames][name].append(timed(words))
    print(f"medians of {ROUNDS} rounds, in turn: ms of processor time, of the filling's, greatest peak beyond the guest's in KiB")
    print(f"{'frames':6} {'MiB':>5} {'filling':>8} " + "".join(f" |{name:>7} {'ratio':>6} {'KiB':>6}" for name in runs[512]))
    medians = {frames: show(frames, fills[frames], runs[frames]) for frames in FRAMES}
    least, most = FRAMES[0], FRAMES[-1]
    for name in runs[least]:
        beyond = (medians[most][name] - medians[least][name]) / (most - least)
        print(f"{name}: {1e6 * beyond:.2f} microseconds a frame from {least} to {most} frames")


main()
