#!/bin/sh
# Times `nkrun scan` on images of 1, 8 and 32 MiB of real code without a hit, beside GNU grep's count of the same encodings in
# the same file, in turn in one run. It prints both medians, their ratio and the peak memory of both. A benchmark, not a test.
# usage: bench/scan_beside_grep.sh [ROUNDS [PROGRAM]]     PROGRAM is an nkrun that is built already
# needs python3, GNU grep -P and /usr/bin/time (Debian: time)
set -eu
bench=$(cd "$(dirname "$0")" && pwd)
top=$(dirname "$bench")
work=$(mktemp -d)
trap 'rm -rf "$work"' EXIT
[ $# -ge 2 ] || "$top/nkrun" scan "$top/examples/images/outer.elf"
for size in 1 8 32; do
        python3 "$bench/make_image.py" "$work/$size.elf" "$size"
done
python3 "$bench/side_by_side.py" "${1:-9}" "${2:-$top/crates/nkrun/out/nkrun}" "$work/1.elf" "$work/8.elf" "$work/32.elf"
