#!/bin/sh
# Times `nkrun run` on three loops of machine code beside QEMU with one instruction a block, QEMU as it comes, which
# translates whole blocks, Unicorn with a hook on each instruction, and Bochs, in one run, and prints the rates by
# processor time; then `nkrun work 100` beside as many plain instructions on each, and `nkrun replay` of that run's
# journal. A benchmark, not a test. A peer that isn't there is left out, and so is one that tells nothing.
# usage: bench/run_beside_peers.sh [ROUNDS [SECONDS [PROGRAM [EARLIER]]]]
#   SECONDS is about what one run takes; PROGRAM is an nkrun that is built already, or - for the peers alone; EARLIER is
#   another, which runs beside it.
# needs gcc, ld, objcopy, python3, and of the peers those that are there (Debian: qemu-system-x86, libunicorn-dev,
# bochs with bochs-term, bochsbios and vgabios); no display
set -eu
bench=$(cd "$(dirname "$0")" && pwd)
top=$(dirname "$bench")
work=$(mktemp -d)
trap 'rm -rf "$work"' EXIT

# One loop as an image for nkrun, flat for Unicorn, in a ROM for QEMU and Bochs, and as a program of this system.
build_loop() {
        mkdir "$work/$1"
        cd "$work/$1"
        gcc -c -DLOOP="$2" -o loop.o "$bench/loops.S"
        ld -static -nostdlib -z max-page-size=4096 -z noexecstack -T "$bench/flat.ld" -o image loop.o
        objcopy -O binary image flat
        gcc -c -Wa,-I. -o rom.o "$bench/boot_rom.S"
        objcopy -O binary -j .text rom.o rom
        gcc -nostdlib -static -z noexecstack -DLOOP="$2" -DNATIVE -o native "$bench/loops.S"
}

(build_loop registers 1)
(build_loop mix 2)
(build_loop user 3)
[ $# -ge 3 ] || "$top/nkrun" scan "$work/mix/image"
command -v qemu-system-x86_64 >/dev/null || echo "left out: no qemu-system-x86_64"
command -v bochs >/dev/null || echo "left out: no bochs"
gcc -O2 -o "$work/hooked_unicorn" "$bench/hooked_unicorn.c" -lunicorn 2>/dev/null || echo "left out: no libunicorn"
dpkg-query -W qemu-system-x86 libunicorn-dev bochs 2>/dev/null || true
python3 "$bench/run_side_by_side.py" "${1:-5}" "${2:-1}" "${3:-$top/crates/nkrun/out/nkrun}" "$work" ${4:+"$4"}
