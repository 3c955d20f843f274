#!/bin/sh
# Tries what outer/build says of an image that the scan refuses: each kernel here holds a protected encoding in another
# way, the instruction has to be named, and each way around that outer/README.md lists has to lead to an image that is
# admitted. Then try_words.sh tries the words of outer/build.
# usage: outer/try_build.sh, or CC=clang outer/try_build.sh. NKRUN as in outer/build.
set -u
here=$(cd "$(dirname "$0")" && pwd) || exit 70
CC=${CC:-gcc}
OPT=-O2
export CC OPT
work=$(mktemp -d) || exit 70
trap 'rm -rf "$work"' EXIT
cd "$work" || exit 70
differ=0

tell() { # WHAT, and 0 where it is as wanted
        if [ "$2" -eq 0 ]; then
                echo "$1: as wanted"
        else
                echo "$1: DIFFERS:"
                sed 's/^/        /' said
                differ=1
        fi
}

refuses() { # WHAT WORD FILE..: a refusal that has the word, of a symbol, an instruction or a way around
        what=$1
        word=$2
        shift 2
        "$here/build" -o image "$@" >said 2>&1
        [ $? -eq 1 ] && grep -q -- '^image: protected' said && grep -q -- "$word" said
        tell "$what: refused, $word" $?
}

admits() { # WHAT FILE..
        what=$1
        shift
        "$here/build" -o image "$@" >said 2>&1
        tell "$what: admitted" $?
}

cat >head.h <<'END'
#include "console.h"
#include "nk.h"
END

# 0F 22 C0 within an immediate.
cat >constant.c <<'END'
#include "head.h"
static CONST uint32_t word = 0x00C0220F;
void kernel_main(nk_frame first_free, uint64_t frames)
{
        print_decimal((first_free + frames) ^ word);
        end_run();
}
END
sed 's/CONST/const/' constant.c >folded.c
sed 's/CONST/const volatile/' constant.c >kept.c
refuses 'a constant' 'stand in kernel_main' folded.c
admits 'a constant, in memory' kept.c

# 0F 30 in data of a section of code.
cat >words.S <<'END'
        .section .text.words, "ax"
        .globl  words
words:  .quad   0x1122334455300F77
        .section .note.GNU-stack, "", @progbits
END
cat >reads.c <<'END'
#include "head.h"
extern const uint64_t words;
void kernel_main(nk_frame first_free, uint64_t frames)
{
        print_decimal(words + first_free + frames);
        end_run();
}
END
sed 's/\.text\.words, "ax"/.rodata, "a"/' words.S >constants.S
refuses 'data among code' 'stand in words' reads.c words.S
admits 'data among code, in .rodata' reads.c constants.S

# MOV ECX,[RDI], whose ModRM is 0F, before ADD [RSI],EDX: 8B 0F 01 16, in whose middle LGDT stands.
cat >two.c <<'END'
#include "head.h"
void kernel_main(nk_frame first_free, uint64_t frames)
{
        uint64_t shift;
        __asm__ volatile("movl (%%rdi), %%ecx" BETWEEN
                         "\n\taddl %%edx, (%%rsi)"
                         : "=c"(shift)
                         : "D"(&first_free), "S"(&frames), "d"(7)
                         : "memory");
        print_decimal(frames << (shift & 7));
        end_run();
}
END
sed 's/ BETWEEN//' two.c >next.c
sed 's/ BETWEEN/ "\\n\\tnop"/' two.c >nop.c
refuses 'two instructions' 'add  *%edx,(%rsi)' next.c
admits 'two instructions, a NOP between' nop.c

# The displacement of a call: 0F 30 00 00. How many bytes stand before the call is tried, since a compiler decides it.
cat >next_one.c <<'END'
#include "head.h"
void next(void);
void next(void)
{
        print("next\n");
}
END
for pad in 0 1 2 3 4 5 6 7 8 9 10 11 12 13 14 15; do
        cat >far.c <<END
#include "head.h"
void next(void);
void kernel_main(nk_frame first_free, uint64_t frames)
{
        __asm__ volatile(".skip $pad, 0x90");
        next();
        __asm__ volatile("jmp 1f; .skip 0x2ff8, 0x90; 1:");
        print_decimal(first_free + frames);
        end_run();
}
END
        "$here/build" -o image far.c next_one.c >said 2>&1 || break
done
refuses 'a displacement' 'call .*<next>' far.c next_one.c
admits 'a displacement, another order of the files' next_one.c far.c
OPT='-O2 -falign-functions=64' admits 'a displacement, functions at multiples of 64' far.c next_one.c

# As gcc compiles it at -O1, MOV ECX,[RDI] stands before ADD [RSI],EDX here too, in plain C; at -O2 it doesn't.
cat >plain.c <<'END'
#include "head.h"
__attribute__((noinline)) static uint32_t step(const uint32_t *count, uint32_t *sum, uint32_t part)
{
        uint32_t shift = *count;
        *sum += part;
        return 1u << shift;
}
void kernel_main(nk_frame first_free, uint64_t frames)
{
        uint32_t count = (uint32_t)first_free, sum = (uint32_t)frames;
        print_decimal(step(&count, &sum, 7) + sum);
        end_run();
}
END
case $($CC --version) in
*clang*) ;;
*) OPT=-O1 refuses 'plain C at -O1' 'stand in step' plain.c ;;
esac
admits 'the same at -O2' plain.c
sed 's/const uint32_t \*count, uint32_t \*sum/uint32_t *sum, const uint32_t *count/
        s/step(&count, &sum/step(\&sum, \&count/' plain.c >turned.c
OPT=-O1 admits 'the same at -O1, parameters in another order' turned.c

# The instruction itself.
cat >whole.c <<'END'
#include "head.h"
void kernel_main(nk_frame first_free, uint64_t frames)
{
        __asm__ volatile("movq %0, %%cr3" : : "r"(first_free + frames));
}
END
sed 's/"movq %0, %%cr3" : : "r"/"movq %%r8, %%cr3" : : "a"/' whole.c >prefix.c
refuses 'MOV to CR3' "which an outer kernel can't have" whole.c
refuses 'MOV to CR3, behind a prefix' "which an outer kernel can't have" prefix.c

"$here/try_words.sh" || differ=1
exit $differ
