#!/bin/sh
# Assembles gates.S with the system's assembler and compares its 4,096 bytes with the text of crates/gate_text. Outside the gate;
# it does nothing where no assembler is there.
set -eu
here=$(cd "$(dirname "$0")" && pwd)
for tool in cc objcopy python3; do
        command -v "$tool" >/dev/null || { echo "skipped: no $tool"; exit 0; }
done
work=$(mktemp -d)
trap 'rm -rf "$work"' EXIT
cc -c -o "$work/gates.o" "$here/gates.S"
objcopy -O binary -j .text "$work/gates.o" "$work/gates.bin"
python3 - "$work/gates.bin" "$here/../../crates/gate_text/src/text.rt" <<'END'
import re
import sys

assembled = open(sys.argv[1], "rb").read()
table = re.search(r"static TEXT: \[u8; \d+\] = \[(.*?)\];", open(sys.argv[2]).read(), re.S).group(1)
text = bytes(int(word, 16) for word in re.findall(r"0x([0-9A-F]{2})", table)).ljust(4096, b"\xcc")
differ = [at for at in range(max(len(assembled), 4096)) if assembled[at:at + 1] != text[at:at + 1]]
sys.exit(f"the texts differ, first at offset {differ[0]}" if differ else print("the assembler's 4,096 bytes are the text's"))
END
