/* A kernel that makes each of the nine calls so that it is accepted, and breaks each of the rules 1 to 27 once. What
 * each call is to be answered with stands beside it, by the rules of docs/MACHINE.md, 14.3; another answer is told on
 * the console. */
#include "console.h"
#include "nk.h"
#include "tables.h"
#include "traps.h"

#define LAST_RULE 27
#define MOST_REGIONS 256

static uint32_t rules_met;
static uint32_t calls_accepted;

static const char record[] = "sixteen bytes ..";

static void tell_difference(const char *wanted, uint64_t answer)
{
        print("wanted ");
        print(wanted);
        print(", answered ");
        print_decimal(answer);
        print("\n");
}

/* The call has to be answered with this rule. */
static void refused(enum nk_rule rule, struct nk_answer answer)
{
        if (answer.value == (uint64_t)rule)
                rules_met |= 1u << rule;
        else
                tell_difference(nk_rule_text(rule), answer.value);
}

/* The call has to be accepted, with this answer. */
static uint64_t accepted(enum nk_number number, uint64_t wanted, struct nk_answer answer)
{
        if (answer.value == wanted && nk_is_accepted(answer))
                calls_accepted |= 1u << number;
        else
                tell_difference("accepted", answer.value);
        return answer.value;
}

void trap(struct frame *frame)
{
        print("trap ");
        print_decimal(frame->vector);
        print("\n");
        end_run();
}

static void set_handler(void)
{
        accepted(NK_SET_HANDLER, 0, nk_set_handler((nk_address)trap_entry));
        refused(NK_NOT_CANONICAL, nk_set_handler(NK_NUMBER(0x800000000000)));
        refused(NK_BAD_CALL, nk_call(10, 0, 0, 0, 0));
}

/* Call 2 wants a frame of data that no leaf lets be written: so the direct map's leaf of it is made read-only first. */
static nk_frame declare_one(struct memory *memory)
{
        nk_frame table = take_frame(memory);
        struct place leaf = direct_map_leaf(memory, table);
        refused(NK_BAD_FRAME, nk_declare_table(1, memory->frames));
        refused(NK_BAD_LEVEL, nk_declare_table(5, table));
        refused(NK_NOT_DATA, nk_declare_table(1, 0));
        refused(NK_STILL_LOOSE, nk_declare_table(1, table));
        accepted(NK_WRITE_ENTRY, 0, nk_write_entry(leaf.table, leaf.index, nk_leaf(table, NK_CAN_READ)));
        accepted(NK_DECLARE_TABLE, 0, nk_declare_table(1, table));
        return table;
}

static void break_entries(const struct memory *memory, nk_frame table)
{
        refused(NK_NOT_TABLE, nk_write_entry(0, 0, 0));
        refused(NK_BAD_INDEX, nk_write_entry(table, NK_ENTRIES, 0));
        refused(NK_KERNEL_SLOT, nk_write_entry(NK_START_ROOT, NK_KERNEL_SLOT_INDEX, 0));
        refused(NK_BAD_BITS, nk_write_entry(table, 0, nk_leaf(table, NK_CAN_READ) | NK_GLOBAL));
        refused(NK_BAD_TARGET, nk_write_entry(table, 0, nk_leaf(memory->frames, NK_CAN_READ)));
        refused(NK_TOO_FREE, nk_write_entry(table, 0, nk_leaf(table, NK_CAN_WRITE)));
}

static void link_and_remove(struct memory *memory, nk_frame table)
{
        struct place place = {take_frame(memory), 0};
        nk_frame root = memory->frames;
        declare_table(memory, 2, place.table);
        link_table(place, table);
        refused(NK_STILL_LINKED, nk_remove_table(table));
        refused(NK_NOT_EMPTY, nk_remove_table(place.table));
        refused(NK_NOT_ROOT, nk_load_root(table));
        undo_entry(place);
        undo_table(memory, place.table);
        *(volatile char *)frame_bytes(take_frame(memory)) = 1; /* the same frame, which can be written again */
        accepted(NK_REMOVE_TABLE, 0, nk_remove_table(table));
        make_writable(memory, table);
        make_root(memory, &root);
        accepted(NK_LOAD_ROOT, 0, nk_load_root(root));
}

/* A page of data becomes region 256, the first that there is, with its bytes as they stand: zeros here. */
static nk_region declare_page(struct memory *memory)
{
        nk_frame frame = take_frame(memory);
        nk_address address = (nk_address)frame_bytes(frame);
        make_read_only(memory, frame);
        refused(NK_BAD_RANGE, nk_declare_pages(address + 1, NK_PAGE, NK_WRITE_ONCE));
        refused(NK_BAD_POLICY, nk_call(NK_DECLARE_PAGES, address, NK_PAGE, 5, 0));
        return accepted(NK_DECLARE_PAGES, NK_FIRST_REGION, nk_declare_pages(address, NK_PAGE, NK_WRITE_ONCE));
}

static void write_regions(nk_region once)
{
        nk_region log = accepted(NK_ALLOCATE, once + 1, nk_allocate(64, NK_WRITE_LOG));
        nk_region append = accepted(NK_ALLOCATE, once + 2, nk_allocate(32, NK_APPEND_ONLY));
        nk_region kept = accepted(NK_ALLOCATE, once + 3, nk_allocate(16, NK_NO_WRITE));
        accepted(NK_WRITE, 0, nk_write(log, 0, record, 16));
        accepted(NK_WRITE, 0, nk_write(once, 8, record, 8));
        accepted(NK_WRITE, 0, nk_write(append, 0, record, 4));
        refused(NK_BAD_REGION, nk_write(1, 0, record, 16));
        refused(NK_OUT_OF_BOUNDS, nk_write(log, 60, record, 16));
        refused(NK_BAD_SOURCE, nk_write(log, 0, (const void *)NK_PAGE, 16));
        refused(NK_NO_WRITE_ALLOWED, nk_write(kept, 0, record, 1));
        refused(NK_WRITTEN_ONCE, nk_write(once, 15, record, 2));
        refused(NK_NOT_AT_END, nk_write(append, 0, record, 4));
        refused(NK_NO_ROOM, nk_allocate(NK_POOL_SIZE, NK_NO_WRITE));
        refused(NK_NOT_ALLOCATED, nk_free(once));
        accepted(NK_FREE, 0, nk_free(log));
        accepted(NK_FREE, 0, nk_free(append));
        accepted(NK_FREE, 0, nk_free(kept));
}

/* The log has one record, of 24 and 16 bytes: 65,496 bytes are left of it, and a record of 65,473 takes one more. The
 * source are frames that nothing was written to. */
static void fill_log(const struct memory *memory, nk_region next)
{
        nk_region pool = accepted(NK_ALLOCATE, next, nk_allocate(NK_POOL_SIZE, NK_WRITE_LOG));
        refused(NK_LOG_FULL, nk_write(pool, 0, frame_bytes(memory->next), 65473));
        accepted(NK_FREE, 0, nk_free(pool));
}

/* One region lives; 255 more are as many as there may be. */
static void fill_regions(nk_region next)
{
        for (unsigned live = 1; live < MOST_REGIONS; live++)
                accepted(NK_ALLOCATE, next++, nk_allocate(1, NK_APPEND_ONLY));
        refused(NK_TOO_MANY_REGIONS, nk_allocate(1, NK_APPEND_ONLY));
}

static unsigned count_bits(uint32_t bits)
{
        unsigned count = 0;
        for (; bits; bits &= bits - 1)
                count++;
        return count;
}

void kernel_main(nk_frame first_free, uint64_t frames)
{
        struct memory memory = memory_at_start(first_free, frames);
        set_handler();
        nk_frame table = declare_one(&memory);
        break_entries(&memory, table);
        link_and_remove(&memory, table);
        nk_region once = declare_page(&memory);
        write_regions(once);
        fill_log(&memory, once + 4);
        fill_regions(once + 5);
        print_decimal(count_bits(calls_accepted));
        print(" calls accepted, ");
        print_decimal(count_bits(rules_met));
        print(" of ");
        print_decimal(LAST_RULE);
        print(" rules met\n");
        end_run();
}
