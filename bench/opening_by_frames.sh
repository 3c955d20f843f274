#!/bin/sh
# Measures how time and memory of `nkrun map`, of `nkrun run` of ten steps and of `nkrun replay` of an empty journal grow
# with the number of frames, beside the filling of as many bytes by `head -c N /dev/zero | tail -c 1`, in one run: processor
# time, of the filling's, and peak memory beyond the guest's. A benchmark, not a test.
# usage: bench/opening_by_frames.sh [ROUNDS [PROGRAM [MOST]]]
#   PROGRAM is an nkrun that is built already; MOST bounds the number of frames, 65536 where it isn't given.
# needs python3, GNU head and tail, and /usr/bin/time (Debian: time)
set -eu
bench=$(cd "$(dirname "$0")" && pwd)
top=$(dirname "$bench")
image=$top/examples/images/outer.elf
[ $# -ge 2 ] || "$top/nkrun" scan "$image"
python3 "$bench/opening_by_frames.py" "${1:-5}" "${2:-$top/crates/nkrun/out/nkrun}" "${3:-65536}" "$image"
