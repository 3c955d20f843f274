#!/bin/sh
# Tries the words of outer/build: flags, symbols, names of files, users' programs, and where it finds its own files and
# the program. usage: outer/try_words.sh, or CC=clang outer/try_words.sh. NKRUN as in outer/build.
set -u
here=$(cd "$(dirname "$0")" && pwd) || exit 70
program=${NKRUN:-$here/../nkrun}
NKRUN=$program
export NKRUN
work=$(mktemp -d) || exit 70
trap 'rm -rf "$work"' EXIT
cd "$work" || exit 70
differ=0

tell() { # WHAT, and 0 where it is as wanted
        if [ "$2" -eq 0 ]; then
                echo "$1: as wanted"
        else
                echo "$1: DIFFERS:"
                sed 's/^/        /' said
                differ=1
        fi
}

# The status, and a line of what is said.
answers() { # WHAT STATUS LINE COMMAND..
        what=$1
        status=$2
        line=$3
        shift 3
        "$@" >said 2>&1
        [ $? -eq "$status" ] && grep -q -- "$line" said
        tell "$what" $?
}

# The console of an image that was built.
prints() { # WHAT TEXT
        "$program" run image /dev/null /dev/null 1000000 512 >text 2>said
        printf '%s' "$2" | od -An -v -tx1 | tr ' ' '\n' | sed '/^$/d; s/^/c /' >wanted
        grep '^c ' text | cmp - wanted >>said 2>&1
        tell "$1" $?
}

builds() { # WHAT TEXT WORD..: an image, whose console is the text
        what=$1
        text=$2
        shift 2
        rm -f image
        answers "$what: admitted" 0 '^image: admitted' "$here/build" -o image "$@"
        prints "$what: its console" "$text"
}

cat >word.c <<'END_OF_C'
#include "console.h"
#include "nk.h"
#ifndef WORD
#include "word.h"
#endif
void kernel_main(nk_frame first_free, uint64_t frames)
{
        (void)first_free;
        (void)frames;
        print(WORD);
        end_run();
}
END_OF_C
mkdir 'a folder'
echo '#define WORD "a header"' >'a folder/word.h'

echo "== flags"
builds '-D with blanks and quotes' "it's 1, 2" "-DWORD=\"it's 1, 2\"" word.c
builds '-D and its word' 'two words' -D 'WORD="two words"' word.c
builds '-I and its word' 'a header' -I 'a folder' word.c
builds '-I with its word' 'a header' '-Ia folder' word.c
builds '-include' 'a header' -include 'a folder/word.h' -DOTHER word.c
builds 'flags behind files' 'late' word.c '-DWORD="late"' -O1
builds '-Wl' 'x' '-DWORD="x"' word.c -Wl,--defsym=one=1,--defsym=two=2 --symbols
nm image >said && grep -q '0*1 A one' said && grep -q '0*2 A two' said
tell '-Wl: both flags came to the linker' $?
builds '-Xlinker' 'x' '-DWORD="x"' word.c -Xlinker --defsym=one=1 -g
nm image >said && grep -q '0*1 A one' said && grep -q 'T kernel_main' said
tell '-Xlinker and -g: the flag came to the linker, and symbols stand there' $?
answers 'a flag of the linker' 2 'a flag of the linker is -Wl,-Tx.ld' "$here/build" -Tx.ld -o image word.c
answers "a flag that the compiler doesn't know" 1 'no-such-flag' "$here/build" -fno-such-flag -o image word.c
answers 'a flag without its word' 2 '^outer/build: -I wants a word behind it' "$here/build" -o image word.c -I
answers 'no words' 2 '^outer/build: usage: ' "$here/build"
answers 'no files' 2 '^outer/build: usage: ' "$here/build" -o image
answers 'no output' 2 '^outer/build: usage: ' "$here/build" word.c
answers '--help' 0 '^usage: outer/build' "$here/build" --help

echo "== symbols"
builds 'without symbols' 'x' '-DWORD="x"' word.c
cp text stripped
nm image >said 2>&1
! grep -q kernel_main said
tell 'none stand there' $?
builds 'with symbols' 'x' --symbols '-DWORD="x"' word.c
nm image >said 2>&1 && grep -q 'T kernel_main' said && cmp text stripped >>said 2>&1
tell 'they stand there, and the run is the same' $?

echo "== files"
cp word.c ./-x.c
builds 'a name that begins with -, behind --' 'dash' '-DWORD="dash"' -- -x.c
builds 'and by ./' 'dash' '-DWORD="dash"' ./-x.c
cp word.c "it's a file.c"
builds 'a name with blanks and quotes' 'blank' '-DWORD="blank"' "it's a file.c"
answers "a file that isn't there" 1 'none.c' "$here/build" -o image none.c
cp word.c word.txt
answers 'a file of no kind' 1 'no object was made of word.txt' "$here/build" -o image word.txt
ln -s word.c link.c
ln word.c hard.c
cp word.c before.c
for name in word.c ./word.c "$work/word.c" link.c hard.c 'a folder/../word.c'; do
        answers "the output $name is the source" 2 'would be written over word.c' "$here/build" -o "$name" word.c
done
answers 'the output is the source, of a program' 2 'would be written over' "$here/build" --user -o word.c word.c
answers 'the output is a file of outer/' 2 'would be written over' "$here/build" -o "$here/nk.h" word.c
cmp word.c before.c >said 2>&1
tell 'the source is as it was' $?
answers 'the output is a folder' 1 'folder' "$here/build" -DWORD=0 --symbols -o 'a folder' word.c

echo "== objects and programs"
cat >user.c <<'END_OF_C'
#include "nk.h"
static volatile char page[8192];
static char first = FIRST;
void _start(void)
{
        char last = (char)(first + page[8191] + 1);
        __asm__ volatile("int $47" : : "a"(1), "D"((uint64_t)first++));
        __asm__ volatile("int $47" : : "a"(1), "D"((uint64_t)first - 1 + 1));
        __asm__ volatile("int $47" : : "a"(2), "D"((uint64_t)last));
}
END_OF_C
cat >kernel.c <<'END_OF_C'
#include "console.h"
#include "programs.h"
#include "traps.h"
#define STACK NK_NUMBER(0x7FF000)
extern const struct program program_ab, program_xy;
extern const char program_ab_end[];
void trap(struct frame *frame)
{
        if (frame->rax == 2 || frame->vector != NK_USER_VECTOR)
                leave_user(frame->rdi);
        print_byte((char)frame->rdi);
}
static void run(struct memory *memory, const struct program *program)
{
        uint64_t answer = map_program(memory, NK_START_ROOT, program);
        print_byte((char)enter_user(program->entry, STACK + NK_PAGE, 0));
        if (answer | unmap_program(memory, NK_START_ROOT, program))
                print("refused");
}
void kernel_main(nk_frame first_free, uint64_t frames)
{
        struct memory memory = memory_at_start(first_free, frames);
        nk_set_handler((nk_address)trap_entry);
        map_page(&memory, NK_START_ROOT, STACK, take_frame(&memory), NK_CAN_WRITE | NK_FOR_USER);
        run(&memory, &program_ab);
        nk_frame next = memory.next;
        for (int again = 0; again < 3; again++)
                run(&memory, &program_ab);
        print(memory.next == next ? "same" : "more");
        run(&memory, &program_xy);
        if (program_ab_end - (const char *)&program_ab != (int64_t)(program_ab.zeros - program_ab.start))
                print("size");
        print(program_xy.start == 0x600000 && program_xy.data == 0x601000 ? "at" : "elsewhere");
        memory.next = frames;
        memory.given_back = frames;
        print(map_program(&memory, NK_START_ROOT, &program_ab) == NK_BAD_FRAME ? "full" : "mapped");
        end_run();
}
END_OF_C
answers 'a program' 0 '^ab.o: program_ab, ' "$here/build" --user -DFIRST="'a'" -o ab.o user.c
answers 'a program at another address' 0 '^./xy.o: program_xy, ' "$here/build" --user -DFIRST="'x'" \
        -Wl,--defsym=PROGRAM_START=0x600000 -o ./xy.o user.c
builds 'a kernel with both' 'abbabbabbabbsamexyyatfull' kernel.c ab.o xy.o
rm -f both.a
ar rc both.a ab.o xy.o
builds 'the same by an archive' 'abbabbabbabbsamexyyatfull' kernel.c both.a
answers 'another name' 2 'PROGRAM.o has letters' "$here/build" --user -o a-b.o user.c
answers 'no name' 2 'PROGRAM.o has letters' "$here/build" --user -o .o user.c
answers 'an address inside of a page' 1 "isn't the address of a page" "$here/build" --user -DFIRST=0 \
        -Wl,--defsym=PROGRAM_START=0x600010 -o z.o user.c
sed 's/_start/start/' user.c >other.c
answers 'no _start' 1 '_start' "$here/build" --user -DFIRST=0 -o z.o other.c

echo "== places"
ln -s "$here/build" linked
rm -f image
answers 'called by a symbolic link' 0 '^image: admitted' ./linked -o image '-DWORD="x"' word.c
mkdir -p tree/bin tree/share/nkrun
cp -R "$here" tree/share/nkrun/outer
printf '#!/bin/sh\necho "the one on the path"\n' >tree/bin/nkrun
chmod +x tree/bin/nkrun
build=tree/share/nkrun/outer/build
answers 'nkrun on the path' 0 '^image: the one on the path' \
        env -u NKRUN PATH="$work/tree/bin:$PATH" $build -o image '-DWORD="x"' word.c
answers 'no nkrun' 127 "^outer/build: image is linked and not scanned: nkrun ends with status 127" \
        env -u NKRUN PATH=/usr/bin:/bin $build -o image '-DWORD="x"' word.c
sed 's/the path/the folder/' tree/bin/nkrun >tree/share/nkrun/nkrun
chmod +x tree/share/nkrun/nkrun
answers 'nkrun beside the folder' 0 '^image: the one on the folder' \
        env -u NKRUN PATH="$work/tree/bin:$PATH" $build -o image '-DWORD="x"' word.c
answers 'NKRUN' 0 '^image: the one on the path' env NKRUN=tree/bin/nkrun $build -o image '-DWORD="x"' word.c
exit $differ
