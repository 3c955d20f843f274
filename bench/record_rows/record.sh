#!/bin/sh
# Records the rows on this machine's processor, says whether they cover the table of opcodes, and puts them where the
# program processor_rows reads them, with what it is to write. Run by hand; README.md says what else to do.
# usage: bench/record_rows/record.sh     needs gcc, python3, Linux on an Intel 64 processor
set -eu
here=$(cd "$(dirname "$0")" && pwd)
crate=$here/../../crates/processor_rows
work=$(mktemp -d)
trap 'rm -rf "$work"' EXIT
gcc -O1 -Wall -Wextra -o "$work/record" "$here/record.c"
PYTHONDONTWRITEBYTECODE=1 python3 "$here/cases.py" >"$work/cases"
"$work/record" <"$work/cases" >"$work/rows"
PYTHONDONTWRITEBYTECODE=1 python3 "$here/coverage.py" <"$work/rows"
mv "$work/rows" "$crate/stdin"
printf 'rows %s\ndiffer 0\n' "$(wc -l <"$crate/stdin" | tr -d ' ')" >"$crate/stdout"
