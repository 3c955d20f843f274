#!/bin/sh
# Times real programs in C under `nkrun run`, beside the same machine code on this machine's own processor and under
# QEMU with one instruction a block, in one run: zlib deflates and inflates texts, LZ4 compresses and decompresses them,
# SHA-256 takes their digests, and pForth, an interpreter, counts their bytes and words. A program's answer depends on
# each byte that it makes, and has to be the same everywhere. A benchmark, not a test.
# usage: bench/run_real_programs.sh [ROUNDS [SECONDS [PROGRAM [SOURCES]]]]
#   SECONDS is about what one run takes; PROGRAM is an nkrun that is built already. SOURCES is a folder with zlib-*,
#   lz4-* and pforth-*, sources as Debian's packages have them: what isn't there is fetched to it by apt-get, and left
#   out where that fails. Without the word they are fetched anew.
#   CC  the compiler, gcc or clang: gcc where it isn't set
#   OPT its further flags, -O2 where it isn't set
# needs gcc, ld, make, objcopy, objdump, GNU grep, python3; apt-get and dpkg-dev for sources; QEMU where it is to be measured
# (Debian: qemu-system-x86)
set -eu
bench=$(cd "$(dirname "$0")" && pwd)
top=$(dirname "$bench")
programs=$bench/real_programs
nkrun=$(realpath "${3:-$top/crates/nkrun/out/nkrun}")
CC=${CC:-gcc}
OPT=${OPT:--O2}
work=$(mktemp -d)
trap 'rm -rf "$work"' EXIT
mkdir -p "${4:-$work/sources}" "$work/lists/partial"
sources=$(realpath "${4:-$work/sources}")

# Debian's sources of a package, from its mirror: most systems' lists have programs alone.
fetch() { # PACKAGE
        [ -e "$work/sources.list" ] || {
                release=$(sed -n 's/^VERSION_CODENAME=//p' /etc/os-release)
                keys=/usr/share/keyrings/debian-archive-keyring.gpg
                echo "deb-src [signed-by=$keys] http://deb.debian.org/debian $release main" > "$work/sources.list"
                apt_get update || return 1
        }
        (cd "$sources" && apt_get source "$1")
}

apt_get() {
        timeout 300 apt-get -qq -o Dir::Etc::sourcelist="$work/sources.list" -o Dir::Etc::sourceparts=- \
                -o Dir::State::lists="$work/lists" "$@" >> "$work/fetched" 2>&1
}

# The folder of a package's sources, with a file that it must have; empty where there is none.
find_sources() { # PACKAGE FILE
        ls "$sources/$1"-*/"$2" > /dev/null 2>&1 || fetch "$1" || true
        for found in "$sources/$1"-*/"$2"; do
                [ ! -e "$found" ] || echo "${found%/"$2"}"
        done | tail -n 1
}

# The code is compiled once for all who run it, with nothing that docs/MACHINE.md leaves out.
compile() { # NAME FLAGS FILE..
        name=$1 flags=$2
        shift 2
        mkdir "$work/$name"
        for file in "$programs/text.c" "$top/outer/memory.c" "$@"; do
                # shellcheck disable=SC2086
                $CC -std=gnu11 $OPT -ffreestanding -fno-pie -fno-pic -mcmodel=kernel -mno-red-zone -mno-sse \
                        -mgeneral-regs-only -fno-stack-protector -fcf-protection=none -fno-asynchronous-unwind-tables \
                        -ffunction-sections -fdata-sections -I "$programs" $flags \
                        -c -o "$work/$name/$(basename "$file" .c).o" "$file"
        done
        link_image "$name"
        link_native "$name"
        check_code "$name"
}

link_image() { # NAME
        cd "$work/$1"
        $CC -c -o start.obj "$programs/start.S"
        ld -static -no-pie -nostdlib -z max-page-size=4096 -z noexecstack --build-id=none --gc-sections --strip-all \
                -T "$bench/flat.ld" -o image start.obj ./*.o
        objcopy -O binary image flat
        $CC -c -Wa,-I. -o rom.obj "$programs/boot_rom.S"
        objcopy -O binary -j .text rom.obj rom
}

link_native() { # NAME
        cd "$work/$1"
        $CC -c -DNATIVE -o start.obj "$programs/start.S"
        ld -static -no-pie -nostdlib -z noexecstack --build-id=none --gc-sections -o native start.obj ./*.o
}

# Stops where an image has an instruction that the machine doesn't have, or bytes of one that it protects.
check_code() { # NAME
        if objdump -d --no-show-raw-insn "$work/$1/image" | grep -P "$absent"; then
                echo "$1: the machine has no such instruction" >&2
                exit 1
        fi
        echo "$1: $("$nkrun" scan "$work/$1/image")"
}
absent='%[xyz]?mm\d|%st\b|%[fg]s:|,%[cdefgs]s$|%[cdefgs]s,|\t\(bad\)|\tmovabs +(0x|%)'
absent="$absent|\t(sys|prefetch|popcnt|lzcnt|rc[lr]|sh[lr]d|[ls]ahf|cpuid|rdtsc|cmpxchg\d)"

compile sha256 "-Wall -Wextra" "$programs/sha256_rounds.c"
zlib=$(find_sources zlib deflate.c)
if [ "$zlib" ]; then
        compile zlib "-DZ_SOLO -DHAVE_MEMCPY -w -I $zlib" "$zlib/adler32.c" "$zlib/crc32.c" "$zlib/deflate.c" \
                "$zlib/inflate.c" "$zlib/inffast.c" "$zlib/inftrees.c" "$zlib/trees.c" "$zlib/zutil.c" \
                "$programs/zlib_rounds.c"
        echo "sources: ${zlib##*/}"
else
        echo "left out: no sources of zlib"
fi
lz4=$(find_sources lz4 lib/lz4.c)
if [ "$lz4" ]; then
        compile lz4 "-DLZ4_FREESTANDING=1 -DLZ4_memcpy=__builtin_memcpy -DLZ4_memmove=__builtin_memmove \
                -DLZ4_memset=__builtin_memset -w -I $lz4/lib" "$lz4/lib/lz4.c" "$programs/lz4_rounds.c"
        echo "sources: ${lz4##*/}"
else
        echo "left out: no sources of lz4"
fi
pforth=$(find_sources pforth csrc/pf_core.c)
if [ "$pforth" ]; then
        # What pForth has of words beyond its kernel it compiles itself, to a table in C.
        cp -r "$pforth" "$work/words"
        make -C "$work/words/platforms/unix" XCPPFLAGS="-D_DEFAULT_SOURCE -D_GNU_SOURCE" pfdicdat.h > "$work/made" 2>&1
        compile pforth "-DPF_EMBEDDED -DPF_STATIC_DIC -w -I $pforth/csrc -I $work/words/platforms/unix" \
                "$pforth/csrc/pf_cglue.c" "$pforth/csrc/pf_clib.c" "$pforth/csrc/pf_core.c" "$pforth/csrc/pf_inner.c" \
                "$pforth/csrc/pf_io.c" "$pforth/csrc/pf_io_none.c" "$pforth/csrc/pf_mem.c" "$pforth/csrc/pf_save.c" \
                "$pforth/csrc/pf_text.c" "$pforth/csrc/pf_words.c" "$pforth/csrc/pfcompil.c" \
                "$pforth/csrc/pfcustom.c" "$programs/pforth_rounds.c"
        echo "sources: ${pforth##*/}"
else
        echo "left out: no sources of pforth"
fi
command -v qemu-system-x86_64 > /dev/null || echo "left out: no qemu-system-x86_64"
$CC --version | head -n 1
python3 "$programs/time_programs.py" "${1:-5}" "${2:-1}" "$nkrun" "$work"
