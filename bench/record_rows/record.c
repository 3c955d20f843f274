/* Executes single instructions on the processor that it runs on, at CPL 3 of 64-bit mode, and writes what each did.
 *
 * It reads cases from standard input, one a line, and writes rows, one a line; README.md has the format of both. A case
 * runs under the trap flag: a signal's return loads all registers and jumps to the instruction, and the debug trap
 * behind it, or its fault, is the next signal, whose frame holds the registers. Where the instruction goes on at
 * another place of the code page, which is full of INT3, the case runs a second time without the trap flag, and both
 * have to agree. PUSHFQ and POPFQ run in the second way alone, since they see the trap flag; repeated string
 * instructions in the first alone, since it takes one turn of them.
 */
#define _GNU_SOURCE
#include <inttypes.h>
#include <signal.h>
#include <stdio.h>
#include <stdlib.h>
#include <string.h>
#include <sys/mman.h>
#include <ucontext.h>
#include <unistd.h>

#define PAGE 4096
#define CODE 0x200000
#define RIP 0x200800
#define DATA 0x210000
#define PAGES 5
#define BASE_FLAGS 0x202
#define TRAP_FLAG 0x100
#define RESUME_FLAG 0x10000
/* CF, PF, AF, ZF, SF, IF, DF, OF, and bit 1, which is always set */
#define KNOWN_FLAGS 0xED7
#define LONGEST 15

enum { DEBUG = 1, BREAKPOINT = 3, PAGE_FAULT = 14 };

struct state {
        uint64_t general[16];
        uint64_t rip, flags;
        /* the vector, its error code and CR2; DEBUG and BREAKPOINT where the instruction ended */
        uint64_t vector, code, address;
};

static const int REGISTERS[16] = {
        REG_RAX, REG_RCX, REG_RDX, REG_RBX, REG_RSP, REG_RBP, REG_RSI, REG_RDI,
        REG_R8, REG_R9, REG_R10, REG_R11, REG_R12, REG_R13, REG_R14, REG_R15,
};

/* what a register holds where a case doesn't say */
static const uint64_t BASE[16] = {
        0x0706050403020100, 0x1716151413121110, 0x2726252423222120, 0x210100,
        0x210800, 0x210900, 0x210A00, 0x210B00,
        0x8786858483828180, 0x9796959493929190, 0xA7A6A5A4A3A2A1A0, 0xB7B6B5B4B3B2B1B0,
        0xC7C6C5C4C3C2C1C0, 0xD7D6D5D4D3D2D1D0, 0xE7E6E5E4E3E2E1E0, 0xF7F6F5F4F3F2F1F0,
};

static uint8_t *code, *memory;
static uint8_t memory_before[PAGES * PAGE];
static struct state before, after;
static gregset_t own;
static volatile sig_atomic_t running;

static void fail(const char *what, const char *line)
{
        fprintf(stderr, "record: %s: %s\n", what, line);
        exit(1);
}

/* Enters the case, and leaves it with the registers of the trap or fault that ended it. */
static void on_signal(int number, siginfo_t *info, void *context)
{
        greg_t *registers = ((ucontext_t *)context)->uc_mcontext.gregs;
        (void)number, (void)info;
        if (!running) {
                memcpy(own, registers, sizeof own);
                for (int i = 0; i < 16; i++)
                        registers[REGISTERS[i]] = (greg_t)before.general[i];
                registers[REG_RIP] = (greg_t)before.rip;
                registers[REG_EFL] = (greg_t)before.flags;
                running = 1;
                return;
        }
        for (int i = 0; i < 16; i++)
                after.general[i] = (uint64_t)registers[REGISTERS[i]];
        after.rip = (uint64_t)registers[REG_RIP];
        after.flags = (uint64_t)registers[REG_EFL] & ~(uint64_t)(TRAP_FLAG | RESUME_FLAG);
        after.vector = (uint64_t)registers[REG_TRAPNO];
        after.code = (uint64_t)registers[REG_ERR];
        after.address = (uint64_t)registers[REG_CR2];
        memcpy(registers, own, sizeof own);
        running = 0;
}

static void *map(uint64_t address, size_t size, int protection, int file, off_t offset)
{
        int where = address ? MAP_FIXED_NOREPLACE : 0;
        void *place = mmap((void *)address, size, protection, MAP_SHARED | MAP_POPULATE | where, file, offset);
        if (place == MAP_FAILED || (address && place != (void *)address) || mlock(place, size) != 0) {
                perror("record: mmap");
                exit(1);
        }
        return place;
}

/* The code page at CODE; from DATA on two pages that may be written, one that may be read, one absent, one that may be
 * written; both again at places of our own, where all may be written. */
static void map_pages(void)
{
        int code_file = memfd_create("code", 0), data_file = memfd_create("data", 0);
        if (ftruncate(code_file, PAGE) != 0 || ftruncate(data_file, PAGES * PAGE) != 0)
                fail("ftruncate", "");
        code = map(0, PAGE, PROT_READ | PROT_WRITE, code_file, 0);
        memory = map(0, PAGES * PAGE, PROT_READ | PROT_WRITE, data_file, 0);
        map(CODE, PAGE, PROT_READ | PROT_EXEC, code_file, 0);
        map(DATA, 2 * PAGE, PROT_READ | PROT_WRITE, data_file, 0);
        map(DATA + 2 * PAGE, PAGE, PROT_READ, data_file, 2 * PAGE);
        map(DATA + 4 * PAGE, PAGE, PROT_READ | PROT_WRITE, data_file, 4 * PAGE);
}

static void catch_signals(void)
{
        static uint8_t stack[65536];
        stack_t place = { .ss_sp = stack, .ss_size = sizeof stack };
        struct sigaction action = { .sa_sigaction = on_signal, .sa_flags = SA_SIGINFO | SA_ONSTACK };
        int signals[] = { SIGTRAP, SIGSEGV, SIGILL, SIGFPE, SIGBUS };
        sigfillset(&action.sa_mask);
        if (sigaltstack(&place, NULL) != 0)
                fail("sigaltstack", "");
        for (size_t i = 0; i < sizeof signals / sizeof *signals; i++)
                if (sigaction(signals[i], &action, NULL) != 0)
                        fail("sigaction", "");
}

static void run(uint64_t trap_flag)
{
        memcpy(memory, memory_before, sizeof memory_before);
        before.flags |= trap_flag;
        memset(&after, 0, sizeof after);
        __asm__ volatile("int3" ::: "memory");
        before.flags &= ~(uint64_t)TRAP_FLAG;
        if (after.vector == BREAKPOINT)
                after.rip--;
}

static int nibble(char digit)
{
        static const char DIGITS[] = "0123456789abcdef";
        const char *place = digit ? strchr(DIGITS, digit) : NULL;
        return place ? (int)(place - DIGITS) : -1;
}

/* The bytes that a text of hexadecimal digits spells, at most `most`; their number, or -1. */
static int read_bytes(const char *text, uint8_t *bytes, int most)
{
        int count = 0;
        for (; *text; text += 2, count++) {
                if (count == most || nibble(text[0]) < 0 || nibble(text[1]) < 0)
                        return -1;
                bytes[count] = (uint8_t)(16 * nibble(text[0]) + nibble(text[1]));
        }
        return count;
}

static void read_memory(const char *address, const char *bytes)
{
        uint64_t offset = strtoull(address, NULL, 16) - DATA;
        if (offset >= PAGES * PAGE || read_bytes(bytes, memory_before + offset, (int)(PAGES * PAGE - offset)) < 1)
                fail("bytes of memory", address);
}

static void read_field(char *field)
{
        char *value = strchr(field, '=');
        if (!value)
                fail("a field without =", field);
        *value++ = 0;
        if (*field == 'm')
                read_memory(field + 1, value);
        else if (*field == 'r' && nibble(field[1]) >= 0)
                before.general[nibble(field[1])] = strtoull(value, NULL, 16);
        else if (*field == 'f')
                before.flags = strtoull(value, NULL, 16);
        else
                fail("an unknown field", field);
}

static void reset(void)
{
        memset(code, 0xCC, PAGE);
        memset(memory_before, 0, sizeof memory_before);
        memcpy(before.general, BASE, sizeof BASE);
        before.rip = RIP;
        before.flags = BASE_FLAGS;
}

static void write_memory(void)
{
        for (int at = 0; at < PAGES * PAGE; at++) {
                if (memory[at] == memory_before[at])
                        continue;
                int end = at + 1;
                for (int next = end; next < at + 8 && next < PAGES * PAGE; next++)
                        if (memory[next] != memory_before[next])
                                end = next + 1;
                printf(" m%x=", DATA + at);
                for (; at < end; at++)
                        printf("%02x", memory[at]);
        }
}

/* What is behind the case: each field that isn't as before, or for RIP as the next instruction's. */
static void write_after(int length, uint64_t undefined)
{
        int faulted = after.vector != DEBUG && after.vector != BREAKPOINT;
        uint64_t defined = faulted ? ~(uint64_t)0 : ~undefined;
        for (int i = 0; i < 16; i++)
                if (after.general[i] != before.general[i])
                        printf(" r%x=%" PRIx64, i, after.general[i]);
        if (after.rip != before.rip + (faulted ? 0 : (uint64_t)length))
                printf(" i=%" PRIx64, after.rip);
        if ((after.flags ^ before.flags) & defined)
                printf(" f=%" PRIx64, after.flags & defined);
        if (~defined)
                printf(" u=%" PRIx64, ~defined);
        write_memory();
        if (faulted)
                printf(" x=%" PRIx64, after.vector);
        if (faulted && after.vector >= 10 && after.vector <= PAGE_FAULT)
                printf(" e=%" PRIx64, after.code);
        if (after.vector == PAGE_FAULT)
                printf(" a=%" PRIx64, after.address);
        printf("\n");
}

/* The first byte that is no prefix, and whether one before it repeats. */
static uint8_t opcode_of(const uint8_t *bytes, int length, int *repeated)
{
        static const uint8_t PREFIXES[] = { 0x66, 0xF0, 0xF2, 0xF3, 0x2E, 0x36, 0x3E, 0x26 };
        int at = 0;
        for (*repeated = 0; at < length - 1; at++) {
                if (!memchr(PREFIXES, bytes[at], sizeof PREFIXES) && bytes[at] >> 4 != 4)
                        break;
                *repeated |= bytes[at] == 0xF2 || bytes[at] == 0xF3;
        }
        return bytes[at];
}

/* Runs the case in the way or ways that fit it. */
static void run_case(const uint8_t *bytes, int length, uint64_t undefined, const char *line)
{
        int repeated;
        uint8_t opcode = opcode_of(bytes, length, &repeated);
        memcpy(code + (RIP - CODE), bytes, (size_t)length);
        if (opcode == 0x9C || opcode == 0x9D) {
                run(0);
                return;
        }
        run(TRAP_FLAG);
        int is_within = after.rip - RIP < (uint64_t)length && after.vector == DEBUG;
        if (repeated || is_within || after.rip - CODE >= PAGE)
                return;
        struct state first = after;
        uint8_t first_memory[PAGES * PAGE];
        memcpy(first_memory, memory, sizeof first_memory);
        run(0);
        if (first.vector == DEBUG)
                first.vector = after.vector == BREAKPOINT ? BREAKPOINT : DEBUG;
        after.flags ^= (after.flags ^ first.flags) & undefined;
        first.address = first.vector == PAGE_FAULT ? first.address : after.address;
        first.code = first.vector >= 10 ? first.code : after.code;
        if (memcmp(&first, &after, sizeof after) || memcmp(first_memory, memory, sizeof first_memory))
                fail("the two ways differ", line);
}

static void record(char *line)
{
        uint8_t bytes[LONGEST];
        uint64_t undefined = 0;
        char *rest = line, *field, whole[512];
        line[strcspn(line, "\n")] = 0;
        snprintf(whole, sizeof whole, "%s", line);
        char *mark = strstr(whole, " u=");
        if (mark) {
                undefined = strtoull(mark + 3, NULL, 16);
                *mark = 0;
                *strstr(line, " u=") = 0;
        }
        reset();
        int length = read_bytes(strsep(&rest, " "), bytes, LONGEST);
        if (length < 1)
                fail("no bytes of an instruction", whole);
        while ((field = strsep(&rest, " ")))
                read_field(field);
        run_case(bytes, length, undefined, whole);
        if (after.flags & ~(uint64_t)KNOWN_FLAGS)
                fail("a flag is set that no case may set", whole);
        printf("%s >", whole);
        write_after(length, undefined);
}

int main(void)
{
        char line[512];
        map_pages();
        catch_signals();
        while (fgets(line, sizeof line, stdin))
                record(line);
        return 0;
}
