/* pForth: an interpreter of Forth counts a text's bytes and words, each in a table, and tells sums of both. It reads its
 * source, and then a line for each round, as if they were typed. */
#include "program.h"
#include "pf_all.h"

static uint8_t text[TEXT_SIZE];

static const char source[] =
        "create counts 256 cells allot\n"
        "create words-of 1024 cells allot\n"
        ": cleared ( table cells -- ) 0 do 0 over i cells + ! loop drop ;\n"
        ": counted ( table index -- ) cells + 1 swap +! ;\n"
        ": folded ( table cells -- sum ) 1 swap 0 do 31 * over i cells + @ xor 1048575 and loop nip ;\n"
        ": ended ( hash -- ) dup if 1023 and words-of swap counted else drop then ;\n"
        ": byte ( hash byte -- hash ) counts over counted\n"
        "  dup 33 < if drop ended 0 else swap 33 * xor 16777215 and then ;\n"
        ": work ( text size -- ) counts 256 cleared words-of 1024 cleared\n"
        "  0 rot rot over + swap do i c@ byte loop ended counts 256 folded . words-of 1024 folded . ;\n";
static size_t typed;                    /* bytes of the source that were read */
static char line[64];
static int echo;                        /* the byte that was read last, until it is told */
static uint64_t round, rounds, digest;

/* The line of a round: where its text is, how long, and the word that goes through it; or the last one. */
static void next_line(void)
{
        static const char work[] = " 65536 work\n";
        if (round == rounds) {
                memcpy(line, "bye\n", 5);
                return;
        }
        fill_text(text, TEXT_SIZE, round++ % TEXTS);
        char digits[20];
        size_t count = 0;
        for (uintptr_t place = (uintptr_t)text; place; place /= 10)
                digits[count++] = (char)('0' + place % 10);
        for (size_t i = 0; i < count; i++)
                line[i] = digits[count - 1 - i];
        memcpy(line + count, work, sizeof work);
}

int sdTerminalIn(void)
{
        if (typed < sizeof source - 1)
                return echo = source[typed++];
        static size_t place;
        if (!line[place]) {
                next_line();
                place = 0;
        }
        return echo = line[place++];
}

/* What is typed is told again, with the place of the text: the digest is of the rest. */
int sdTerminalOut(char byte)
{
        if (byte != echo)
                digest = fold_bytes(digest, (const uint8_t *)&byte, 1);
        echo = 0;
        return 0;
}

int sdTerminalEcho(char byte)
{
        (void)byte;
        return 0;
}

int sdTerminalFlush(void)
{
        return 0;
}

int sdQueryTerminal(void)
{
        return 0;
}

void sdTerminalInit(void)
{
}

void sdTerminalTerm(void)
{
}

cell_t sdSleepMillis(cell_t milliseconds)
{
        (void)milliseconds;
        return 0;
}

uint64_t run_program(uint64_t count)
{
        rounds = count;
        digest = 1;
        pfSetQuiet(1);
        if (pfDoForth(0, 0, 0))
                return 0;
        return digest;
}
