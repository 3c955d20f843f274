#!/bin/sh
# Tries each row of README.md beside it: makes the change or the mistake, builds, scans, and compares what the tools or the
# program say with what the row says. Outside the gate. usage: ./try_rows.sh, or CC=clang ./try_rows.sh. NKRUN is the
# program, ./nkrun of the repository where it isn't set.
set -u
here=$(cd "$(dirname "$0")" && pwd)
NKRUN=${NKRUN:-$here/../../nkrun}
CC=${CC:-gcc}
export CC NKRUN
work=$(mktemp -d)
trap 'rm -rf "$work"' EXIT
differ=0

# A fresh copy of the kernels and of outer/, in which a row makes its change.
fresh() {
        rm -rf "$work/row"
        mkdir "$work/row"
        cp -R "$here"/*.c "$here/../../outer" "$work/row"
        cd "$work/row" || exit 1
}

# Compares what was said with what the row says, and prints both.
tell() { # WHAT WANTED SAID
        case $3 in
        *"$2"*) printf '%-58s %s\n' "$1" "$2" ;;
        *)
                printf '%-58s DIFFERS: wanted %s, seen %s\n' "$1" "$2" "$3"
                differ=1
                ;;
        esac
}

# Builds the kernel, which scans it too.
built() {
        outer/build -o outer.elf kernel.c 2>&1
}

# A line of the build, the linker's script or a source is changed before the build.
edit() { # WHAT FILE SED-COMMAND WANTED
        fresh
        sed "$3" "$2" >changed
        cmp -s changed "$2" && { tell "$1" "a change in $2" "none"; return; }
        cat changed >"$2"
        tell "$1" "$4" "$(built)"
}

# A function of C, f, is built without one of the flags, and its instructions are looked at.
compiled() { # WHAT FLAG C WANTED
        fresh
        sed "s/ $2//" outer/build >changed && cat changed >outer/build
        echo "$3 void kernel_main(void) {}" >line.c
        tell "$1" "$4" "$(outer/build -Wl,-u,f -o line.elf line.c 2>&1 && objdump -d line.elf | sed 's/-0x[0-9a-f]*(%rsp/below (%rsp/')"
}

# A command makes bad.elf of the image that was built well.
spoil() { # WHAT COMMAND WANTED
        fresh
        built >said || { tell "$1" 'an image' "$(cat said)"; return; }
        tell "$1" "$3" "$(eval "$2" 2>&1 && "$NKRUN" scan bad.elf 2>&1)"
}

# The byte at a place of the image is another. Called by the commands that spoil() evaluates.
# shellcheck disable=SC2317
poke() { # PLACE OCTAL
        cp outer.elf bad.elf && printf '%b' "\\0$2" | dd of=bad.elf bs=1 seek="$1" conv=notrunc status=none
}

admitted='admitted entry ffffffff80000'
echo "== $($CC --version | head -n 1); $(ld --version | head -n 1)"

echo "== as it stands, and flags that change nothing here when they are left out"
edit 'nothing changed but a remark' kernel.c 's/A small/A little/' "$admitted"
for flag in -ffreestanding -fno-stack-protector -fcf-protection=none -fno-asynchronous-unwind-tables -mno-red-zone \
        -mgeneral-regs-only -ffunction-sections -fdata-sections -static -no-pie -nostdlib '-z max-page-size=4096' \
        '-z noexecstack' --build-id=none; do
        edit "without $flag" outer/build "s/ $flag//" "$admitted"
done

echo "== flags that are missed, or that a distribution turns on"
case $($CC --version) in
*clang*) edit 'without -fno-pie -fno-pic' outer/build 's/ -fno-pie -fno-pic//' "$admitted" ;;
*) edit 'without -fno-pie -fno-pic, where PIE is the default' outer/build 's/ -fno-pie -fno-pic/ -fpie/' 'code model kernel does not support PIC mode' ;;
esac
edit 'without -mcmodel=kernel' outer/build 's/ -mcmodel=kernel//' 'relocation truncated to fit'
edit 'without --gc-sections' outer/build 's/ --gc-sections//' 'undefined reference to `trap'
edit 'with -fstack-protector-all' outer/build 's/-fno-stack-protector/-fstack-protector-all/' '__stack_chk_fail'
edit 'with -fcf-protection: ENDBR64 is a NOP' outer/build 's/-fcf-protection=none/-fcf-protection/' "$admitted"
leaf='int f(int n) { volatile int kept[4]; kept[n & 3] = n; return kept[0]; }'
compiled 'without -mno-red-zone: memory below RSP' -mno-red-zone "$leaf" 'below (%rsp'
compiled 'without -mgeneral-regs-only: XMM registers' -mgeneral-regs-only 'double f(double x) { return x + x; }' '%xmm0'
edit '-pie for -no-pie' outer/build 's/-no-pie/-pie/' 'can not be used when making a PIE object'
edit '-shared for -static -no-pie' outer/build 's/-static -no-pie/-shared/' 'can not be used when making a shared object'
# PIC code, whose start takes no address of 32 bits.
pic() { # WHAT SED-COMMAND WANTED
        fresh
        sed -i 's/movq    $stack_end, %rsp/leaq    stack_end(%rip), %rsp/' outer/start.S
        sed -i "s/ -fno-pie -fno-pic/ -fPIC/; s/ -mcmodel=kernel//; $2" outer/build
        tell "$1" "$3" "$(built)"
}
pic '-pie and -fPIC: a file of type EXEC at this base' 's/-static -no-pie/-pie/' "$admitted"
pic '-shared and -fPIC' 's/-static -no-pie/-shared/' 'image 4 FileType 16'
if command -v clang >/dev/null && command -v ld.lld >/dev/null; then
        export LD=ld.lld
        pic '-pie and -fPIC by ld.lld' 's/-static -no-pie/-pie/' 'image 4 FileType 16'
        unset LD
fi

echo "== mistakes"
spoil 'no such file' true 'unread image'
spoil 'a directory' 'mkdir bad.elf' 'unread image'
spoil 'an empty file' ': >bad.elf' 'image 1 Short 0'
spoil 'cut within the file header' 'head -c 63 outer.elf >bad.elf' 'image 1 Short 63'
spoil 'a script' 'cp outer/build bad.elf' 'image 2 Magic 0'
spoil 'a compressed image' 'gzip -c outer.elf >bad.elf' 'image 2 Magic 0'
spoil 'a 32-bit image' 'printf "_start: hlt\n.globl _start\n" >a.S && '"$CC"' -m32 -c a.S && ld -m elf_i386 -o bad.elf a.o' 'image 3 Class 4'
spoil 'a big-endian image' 'poke 5 2' 'image 3 Class 5'
spoil 'another version of ELF' 'poke 6 2' 'image 3 Class 6'
spoil 'an object file' "$CC"' -c -o bad.elf kernel.c' 'image 4 FileType 16'
if command -v clang >/dev/null && command -v ld.lld >/dev/null; then
        spoil 'an image for another machine' 'printf "_start: hlt #0\n.globl _start\n" >a.S && clang --target=aarch64-none-elf -c a.S && ld.lld -o bad.elf a.o' 'image 5 Machine 18'
fi
spoil 'a linker script that keeps nothing: no program headers' 'echo "SECTIONS { /DISCARD/ : { *(*) } }" >no.ld && '"$CC"' -c outer/start.S && ld -e 0 -T no.ld -o bad.elf start.o' 'image 6 Table 54'
headers=$(seq 65 | sed 's/.*/x& PT_LOAD FLAGS(4);/' | tr '\n' ' ')
bodies=$(seq 65 | sed 's/.*/. = ALIGN(4096); .x& : { BYTE(1) } :x&/' | tr '\n' ' ')
edit 'more than 64 program headers' outer/outer.ld "s/^        code PT_LOAD/        $headers&/; s/^        \/DISCARD/        $bodies&/" 'image 6 Table 56'
spoil 'cut within the program headers' 'head -c 100 outer.elf >bad.elf' 'image 6 Table 32'
spoil 'cut after linking' 'head -c 300 outer.elf >bad.elf' 'image 7 SegmentRange 0'
fresh
sed -i 's/-nostdlib/-N/' outer/build && sed -i 's/ + SIZEOF_HEADERS//' outer/outer.ld
tell 'packed by ld -N, from the first byte of the page on' 'image 8 Align 0' "$(built)"
edit "without -T: the linker's own script" outer/build 's/ -T "$script"//' 'image 9 OutsideHome 0'
edit '-Ttext: the headers lie one page below' outer/build 's/-T "$script"/-Ttext=0xFFFFFFFF80000000/' 'image 9 OutsideHome 0'
edit 'without ALIGN between the segments' outer/outer.ld '/ALIGN/d' 'image 10 SharedPage'
edit 'without PHDRS: the headers stand in a segment' outer/outer.ld '/^PHDRS/,/^}/d; s/ :code//; s/ :constants//; s/ :data//' 'image 10 SharedPage'
edit 'code that may be written: FLAGS(7)' outer/outer.ld 's/FLAGS(5)/FLAGS(7)/' 'image 11 WritableCode 0'
edit 'without ENTRY: --gc-sections keeps nothing' outer/outer.ld '/^ENTRY/d' 'image 12 BadEntry 24'
edit 'an entry in data' outer/outer.ld 's/ENTRY(_start)/ENTRY(start)/; s/\*(.text.start)/KEEP(&)/; s/\.data : {/& start = .;/' 'image 12 BadEntry 24'
edit 'ld -e 0' outer/build 's/-nostdlib/-nostdlib -u _start -e 0/' 'image 12 BadEntry 24'
edit '40 MiB of zeroed memory' kernel.c 's/refusals\[512\]/refusals[5 << 20]/' 'image 13 TooLarge'
fresh
tell 'an immediate that holds a protected encoding' 'protected ffffffff80000' "$(outer/build -o bad.elf refused.c 2>&1)"
spoil 'a file of more than 64 MiB' 'truncate -s 67108865 bad.elf' 'longer image 67108864'
exit $differ
