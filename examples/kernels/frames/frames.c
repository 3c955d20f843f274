/* Takes all frames and gives them back, and then makes and undoes more page tables than memory has frames. */
#include "console.h"
#include "nk.h"
#include "tables.h"

#define PAGE NK_NUMBER(0x400000)
#define TABLES_OF_A_PAGE 4 /* a root, and one table of each lower level */
#define ROOTS 2

static uint64_t refusals;

static void must(uint64_t answer)
{
        if (answer == NK_ACCEPTED)
                return;
        refusals++;
        print(nk_rule_text(answer));
        print("\n");
}

static void tell(uint64_t number, const char *what)
{
        print_decimal(number);
        print(what);
        print("\n");
}

/* Each frame goes back, the highest first: so the lowest is the first that is taken next. */
static uint64_t take_all_and_give_back(struct memory *memory)
{
        uint64_t taken = 0;
        while (take_frame(memory) < memory->frames)
                taken++;
        for (nk_frame frame = memory->frames; frame > memory->first_free; frame--)
                must(give_frame(memory, frame - 1));
        return taken;
}

/* A root with a page, which is stored to through it, and undone. */
static void make_and_undo_root(struct memory *memory, nk_frame page)
{
        nk_frame root;
        must(make_root(memory, &root));
        must(map_page(memory, root, PAGE, page, NK_CAN_WRITE));
        must(load_root(root));
        ++*(volatile uint64_t *)PAGE;
        must(load_root(NK_START_ROOT));
        must(undo_root(memory, root));
}

static void make_and_undo_table(struct memory *memory)
{
        nk_frame table = take_frame(memory);
        must(declare_table(memory, 1, table));
        must(undo_table(memory, table));
}

static void refuse(struct memory *memory)
{
        nk_frame table = take_frame(memory);
        must(declare_table(memory, 1, table));
        print(give_frame(memory, table) == NK_NOT_DATA ? "a table is refused\n" : "a table is given back\n");
        must(undo_table(memory, table));
        print(give_frame(memory, memory->frames) == NK_BAD_FRAME ? "no frame is refused\n" : "no frame is given back\n");
}

void kernel_main(nk_frame first_free, uint64_t frames)
{
        struct memory memory = memory_at_start(first_free, frames);
        uint64_t taken = take_all_and_give_back(&memory);
        print(taken == frames - first_free ? "all frames are taken\n" : "a frame is missing\n");
        nk_frame page = take_frame(&memory);
        uint64_t tables = 0;
        for (int made = 0; made < ROOTS; made++, tables += TABLES_OF_A_PAGE)
                make_and_undo_root(&memory, page);
        tell(*(volatile uint64_t *)frame_bytes(page), " stores through roots that are undone");
        for (; tables <= frames; tables++)
                make_and_undo_table(&memory);
        tell(tables, " tables made and undone");
        refuse(&memory);
        must(give_frame(&memory, page));
        print(take_all_and_give_back(&memory) == taken ? "and again\n" : "a frame is missing at the end\n");
        tell(refusals, " refusals");
        end_run();
}
