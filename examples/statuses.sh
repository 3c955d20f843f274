#!/bin/sh
# Shows that main passes on the answer of each command: each status of docs/FORMATS.md comes once and more, with its line.
# A program of which main gave another number would pass every proof, since none speaks of main's own status.
# usage: examples/statuses.sh [PROGRAM]     PROGRAM is the repository's ./nkrun where it is left out
set -u
top=$(cd "$(dirname "$0")/.." && pwd) || exit 70
program=${1:-$top/nkrun}
case $program in
/*) ;;
*) program=$PWD/$program ;;
esac
image=$top/examples/images/outer.elf
work=$(mktemp -d) || exit 70
trap 'rm -rf "$work"' EXIT
tried=0
failed=0

# Says what differs, if a command ends with another status, or writes another first line.
difference() { # STATUS LINE WORDS..
        wanted="$1 $2"
        shift 2
        "$program" "$@" >"$work/said" 2>/dev/null </dev/null
        seen="$? $(head -n 1 "$work/said")"
        [ "$seen" = "$wanted" ] || echo "nkrun $*: wanted '$wanted', seen '$seen'"
}

count() { # DIFFERENCE
        tried=$((tried + 1))
        [ -z "$1" ] || { echo "$1" >&2; failed=1; }
}

expect() { # STATUS LINE WORDS..
        count "$(difference "$@")"
}

# The same with so many KiB of memory.
expect_within() { # KIB STATUS LINE WORDS..
        count "$(ulimit -v "$1" && shift && difference "$@")"
}

usage='usage: nkrun scan IMAGE | map IMAGE FRAMES VA | run IMAGE INPUT PLAN STEPS FRAMES | replay IMAGE FRAMES JOURNAL'
usage="$usage | make NUMBER | work NUMBER | join IMAGE LIST | audit IMAGE FRAMES JOURNAL ID"
usage="$usage | asm TEXT | list IMAGE ADDR COUNT"
printf '0 irq 32\n0 irq 31\n' >"$work/plan"
printf 'k\n' >"$work/journal"
printf 'pack -\npack A\n' >"$work/list"
truncate -s 67108865 "$work/long" || exit 70

expect 0 'missing 4' map "$image" 512 0
expect 0 'end steps' run "$image" /dev/null /dev/null 0 512
expect 0 'root 5' replay "$image" 512 /dev/null
expect 1 'image 1 Short 0' scan /dev/null
expect 1 'protected ffffffff80000113 0f22c0' scan "$top/examples/images/refused.elf"
expect 1 'protected ffffffff80000113 0f22c0' run "$top/examples/images/refused.elf" /dev/null /dev/null 1 512
expect 2 "$usage"
expect 2 "$usage" scan
expect 3 'unread image' scan "$work/none"
expect 3 'unread image' scan "$work"
expect 3 'unread list' join "$image" "$work/none"
expect 3 'unread plan' run "$image" /dev/null "$work/none" 1 512
expect_within 14000 5 'no memory' work 1
expect 6 'plan line 2' run "$image" /dev/null "$work/plan" 1 512
expect 6 'journal line 1' replay "$image" 512 "$work/journal"
expect 6 'list line 2' join "$image" "$work/list"
expect 6 'list line 1' join "$image" /dev/null
expect 7 'longer image 67108864' scan "$work/long"
expect 7 'longer input 67108864' run "$image" "$work/long" /dev/null 1 512
# The names of a list are those of files beside the place where the program runs.
cd "$work" || exit 70
printf 'guard code\n' >list && printf '\303' >code && : >none.code && printf 'pack none.code\n' >empty.list
printf 'pack gone\n' >gone.list && printf 'pack long\n' >long.list
expect 3 'unread module' join "$image" gone.list
expect 7 'longer module 1048576' join "$image" long.list
expect 8 'module 0 empty' join "$image" empty.list
count "$("$program" join "$image" list >joined 2>/dev/null && "$program" scan joined | grep -q 'pages 2$' || echo 'a joined image is not admitted')"
# The made image logs one write, of which the next leads to no slot.
"$program" make 1 >made 2>/dev/null || exit 70
expect 0 'b 0' audit made 4096 "$top/examples/journals/made.journal" 256
expect 6 'journal line 19' audit made 4096 "$top/examples/journals/tampered.journal" 256
expect 9 'noregion 257' audit made 4096 "$top/examples/journals/made.journal" 257
expect 9 'noregion 256' audit "$image" 512 /dev/null 256
printf 'mov.8 r0 value 41\nmov.9 r0 r1 0\n' >text
expect 3 'unread text' asm gone
expect 6 'text line 2' asm text
expect 7 'longer text 67108864' asm long
count "$(printf 'mov.8 r0 value 41' >text && [ "$("$program" asm text | od -An -tx1 | tr -d ' \n')" = b041 ] || echo 'asm writes other bytes')"
expect 0 'ffffffff80000000 48c7c300100080 mov.64 r3 value ffffffff80001000' list made ffffffff80000000 1
expect 10 'noaddress 0000000000000000' list made 0 1
expect 64 '' scan "$(printf '\377')"
if [ -e /dev/full ]; then
        "$program" scan "$image" >/dev/full 2>/dev/null
        count "$([ $? -eq 4 ] || echo "a full device: another status than 4")"
fi
# A pipe has no size, so a scan doesn't read it; what holds the image does.
count "$("$program" scan /dev/stdin <"$image" | grep -q '^admitted ' || echo 'standard input from a file is not scanned')"
count "$(cat "$image" | "$program" scan /dev/stdin | grep -qx 'unread image' || echo 'a pipe is not unread')"
count "$(cat "$image" | "$program" map /dev/stdin 512 0 | grep -qx 'missing 4' || echo 'map of a pipe: another line')"
# The wrong cases: another status, and another line.
[ -n "$(difference 1 'missing 4' map "$image" 512 0)" ] && [ -n "$(difference 0 'missing 3' map "$image" 512 0)" ] ||
        count 'a wrong status or line is not found'
[ $failed -eq 0 ] && echo "statuses: $tried calls, each with its status and line"
exit $failed
