/* A kernel that logs its system calls in a region of the policy write-log, and an attacker in the kernel that wants the
 * log to say otherwise. What each call is to be answered with, and how each store is to fault, stands beside it, by
 * docs/MACHINE.md, 4, 7 and 14.3; what comes otherwise is told on the console. */
#include "console.h"
#include "nk.h"
#include "tables.h"
#include "traps.h"

#define SLOTS 4
#define STORE_LENGTH 2     /* of the MOV in store */
#define MISSING_PAGE 2     /* the error codes of a store: W/R alone, .. */
#define READ_ONLY_PAGE 3   /* ..and with P */
#define FIRST_POOL_FRAME 10
#define FIRST_LOG_FRAME 26
#define WRITE_CALL 1
#define OPEN_CALL 2
#define GETPID_CALL 39
#define EXIT_CALL 60
#define UNLINK_CALL 87

/* Eight bytes of the log: which system call this was, counted from 1, its number, and its argument. */
struct record {
        uint16_t order;
        uint16_t number;
        uint32_t argument;
};

static uint16_t served;
static uint64_t faults;
static uint64_t refusals;
static uint64_t last_error;
static nk_address last_address;

static void tell_difference(const char *what, uint64_t wanted, uint64_t found)
{
        print(what);
        print(": wanted ");
        print_hexadecimal(wanted);
        print(", found ");
        print_hexadecimal(found);
        print("\n");
}

static void want(const char *what, uint64_t wanted, uint64_t found)
{
        if (wanted != found)
                tell_difference(what, wanted, found);
}

static void refused(enum nk_rule rule, struct nk_answer answer)
{
        want("rule", (uint64_t)rule, answer.value);
        refusals += !nk_is_accepted(answer);
}

/* The one trap is that of a store, which is passed over. */
void trap(struct frame *frame)
{
        if (frame->vector != NK_PAGE_FAULT) {
                tell_difference("vector", NK_PAGE_FAULT, frame->vector);
                end_run();
        }
        faults++;
        last_error = frame->error;
        last_address = fault_address();
        frame->rip += STORE_LENGTH;
}

/* Stores a byte; that has to fault with this error code, at this address. */
static void store(nk_address address, uint64_t error)
{
        uint64_t before = faults;
        __asm__ volatile("movb %%al, (%%rdi)" : : "a"(0xFF), "D"(address) : "memory");
        want("faults", before + 1, faults);
        want("error", error, last_error);
        want("address", address, last_address);
}

/* A system call: what it does would stand here. Its record goes to the oldest slot. */
static void serve(nk_region log, uint16_t number, uint32_t argument)
{
        uint64_t offset = served % SLOTS * sizeof(struct record);
        struct record record = {++served, number, argument};
        want("record", NK_ACCEPTED, nk_write(log, offset, &record, sizeof record).value);
}

/* Five system calls in four slots: the fifth record takes the place of the first, of which the log keeps the bytes. */
static void serve_all(nk_region log)
{
        serve(log, GETPID_CALL, 0);
        serve(log, OPEN_CALL, 3);
        serve(log, WRITE_CALL, 3);
        serve(log, UNLINK_CALL, 7);
        serve(log, EXIT_CALL, 0);
}

/* By stores: to the region where it stands, to the same frame in the direct map, and to a frame of the log, which the
 * direct map doesn't have. */
static void attack_by_stores(nk_address place)
{
        store(place, READ_ONLY_PAGE);
        store(NK_DIRECT_MAP + FIRST_POOL_FRAME * NK_PAGE, READ_ONLY_PAGE);
        store(NK_DIRECT_MAP + FIRST_LOG_FRAME * NK_PAGE, MISSING_PAGE);
}

/* By leaves that would make such a store good: the pool is guarded, so a writable leaf of it is too free; the log is
 * hidden, so no leaf may name it at all; and the pool's own leaves stand in frame 8, which is no page table. */
static void attack_by_leaves(const struct memory *memory)
{
        struct place pool = direct_map_leaf(memory, FIRST_POOL_FRAME);
        struct place log = direct_map_leaf(memory, FIRST_LOG_FRAME);
        struct place own = {8, 16};
        nk_entry writable = nk_leaf(FIRST_POOL_FRAME, NK_CAN_WRITE);
        refused(NK_TOO_FREE, nk_write_entry(pool.table, pool.index, writable));
        refused(NK_BAD_TARGET, nk_write_entry(log.table, log.index, nk_leaf(FIRST_LOG_FRAME, NK_CAN_READ)));
        refused(NK_NOT_TABLE, nk_write_entry(own.table, own.index, writable));
}

/* By what isn't a record: one that passes the region's end, an empty one, one of bytes that can't be read, and one for
 * a region that there isn't. */
static void attack_by_writes(nk_region log, const struct record *forged)
{
        refused(NK_OUT_OF_BOUNDS, nk_write(log, SLOTS * sizeof *forged - 4, forged, sizeof *forged));
        refused(NK_OUT_OF_BOUNDS, nk_write(log, 0, forged, 0));
        refused(NK_BAD_SOURCE, nk_write(log, 0, (const void *)NK_PAGE, sizeof *forged));
        refused(NK_BAD_REGION, nk_write(log + 1, 0, forged, sizeof *forged));
}

/* What the attacker can do is what the kernel can: a call 9 with zeros over the second slot. It hides nothing, since
 * the log keeps what stood there and gains the zeros as a record. */
static void attacker(const struct memory *memory, nk_region log, nk_address place)
{
        static const struct record forged = {0, 0, 0};
        attack_by_stores(place);
        attack_by_leaves(memory);
        attack_by_writes(log, &forged);
        want("zeros", NK_ACCEPTED, nk_write(log, sizeof forged, &forged, sizeof forged).value);
}

void kernel_main(nk_frame first_free, uint64_t frames)
{
        struct memory memory = memory_at_start(first_free, frames);
        want("handler", NK_ACCEPTED, nk_set_handler((nk_address)trap_entry).value);
        struct nk_answer log = nk_allocate(SLOTS * sizeof(struct record), NK_WRITE_LOG);
        want("region", NK_FIRST_REGION, log.value);
        want("place", NK_POOL, log.place);
        serve_all(log.value);
        attacker(&memory, log.value, log.place);
        print_decimal(served);
        print(" system calls, ");
        print_decimal(faults);
        print(" of 3 stores faulted, ");
        print_decimal(refusals);
        print(" of 7 calls refused\n");
        end_run();
}
