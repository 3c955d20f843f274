/* A kernel that keeps three things: a configuration that is written once (policy 1), a journal that only grows (policy
 * 2), and settings in a page of its own, which it writes by stores first and then declares (call 6). What each call is
 * to be answered with, and how each store is to fault, stands beside it, by docs/MACHINE.md, 4, 7 and 14.3; what comes
 * otherwise is told on the console. */
#include "console.h"
#include "nk.h"
#include "tables.h"
#include "traps.h"

#define STORE_LENGTH 2   /* of the MOV in store */
#define READ_ONLY_PAGE 3 /* the error code of a store: P and W/R */
#define IMAGE_TABLE 66   /* the image's table of level 1, in 512 frames: 64, and 2 of descriptors (section 3) */

/* A page of the image, to be declared in vain. */
static volatile uint8_t image_page[NK_PAGE] __attribute__((aligned(NK_PAGE)));

static uint64_t accepted_calls;
static uint64_t refused_calls;
static uint64_t faults;
static uint64_t last_error;
static nk_address last_address;

static void want(const char *what, uint64_t wanted, uint64_t found)
{
        if (wanted == found)
                return;
        print(what);
        print(": wanted ");
        print_hexadecimal(wanted);
        print(", found ");
        print_hexadecimal(found);
        print("\n");
}

static uint64_t accepted(uint64_t wanted, struct nk_answer answer)
{
        want("an accepted call", wanted, answer.value);
        accepted_calls += (uint64_t)nk_is_accepted(answer);
        return answer.value;
}

static void refused(enum nk_rule rule, struct nk_answer answer)
{
        want("a refused call", (uint64_t)rule, answer.value);
        refused_calls += !nk_is_accepted(answer);
}

/* The one trap is that of a store, which is passed over. */
void trap(struct frame *frame)
{
        want("vector", NK_PAGE_FAULT, frame->vector);
        if (frame->vector != NK_PAGE_FAULT)
                end_run();
        faults++;
        last_error = frame->error;
        last_address = fault_address();
        frame->rip += STORE_LENGTH;
}

static void store(volatile uint8_t *place, char byte)
{
        __asm__ volatile("movb %%al, (%%rdi)" : : "a"(byte), "D"(place) : "memory");
}

static void store_faults(volatile uint8_t *place)
{
        uint64_t before = faults;
        store(place, '!');
        want("faults", before + 1, faults);
        want("error", READ_ONLY_PAGE, last_error);
        want("address", (nk_address)place, last_address);
}

/* Two halves of a configuration, each written once. A range of which one byte was written is refused whole. */
static void configure(void)
{
        struct nk_answer region = nk_allocate(16, NK_WRITE_ONCE);
        nk_region configuration = accepted(NK_FIRST_REGION, region);
        accepted(0, nk_write(configuration, 0, "root=sda", 8));
        refused(NK_WRITTEN_ONCE, nk_write(configuration, 0, "root=sdb", 8));
        refused(NK_WRITTEN_ONCE, nk_write(configuration, 7, "b quiet ", 8));
        accepted(0, nk_write(configuration, 8, "quiet=on", 8));
        store_faults((volatile uint8_t *)region.place);
}

/* The tail stands behind the last byte written: at 0, then at 5, then at 11. Before it there is no way back, behind it
 * no gap, and the region ends at 16. */
static void keep_journal(void)
{
        nk_region journal = accepted(NK_FIRST_REGION + 1, nk_allocate(16, NK_APPEND_ONLY));
        refused(NK_NOT_AT_END, nk_write(journal, 1, "boot;", 5));
        accepted(0, nk_write(journal, 0, "boot;", 5));
        accepted(0, nk_write(journal, 5, "mount;", 6));
        refused(NK_NOT_AT_END, nk_write(journal, 0, "BOOT;", 5));
        refused(NK_NOT_AT_END, nk_write(journal, 12, "gap;", 4));
        refused(NK_OUT_OF_BOUNDS, nk_write(journal, 11, "logout;", 7));
}

/* The image's own pages stay as they are: this one's leaf in the kernel slot lets it be written, so that its frame is
 * loose, and stands in a frame that is no page table for call 3. */
static void declare_image_page(void)
{
        unsigned index = (unsigned)((nk_address)image_page / NK_PAGE % NK_ENTRIES);
        refused(NK_STILL_LOOSE, nk_declare_pages((nk_address)image_page, NK_PAGE, NK_NO_WRITE));
        refused(NK_NOT_TABLE, nk_write_entry(IMAGE_TABLE, index, 0));
        store(image_page, 's');
        want("byte", 's', image_page[0]);
}

static void want_text(const char *text, const volatile uint8_t *page)
{
        for (; *text; text++, page++)
                want("byte", (uint8_t)*text, *page);
}

/* A page of the kernel's data in the direct map: stores fill it, and call 3 makes it read-only, so that it may be
 * declared. */
static struct place fill_page(nk_frame frame, const struct memory *memory)
{
        volatile uint8_t *page = frame_bytes(frame);
        struct place leaf = direct_map_leaf(memory, frame);
        store(page, 'o');
        store(page + 1, 'f');
        store(page + 2, 'f');
        refused(NK_STILL_LOOSE, nk_declare_pages((nk_address)page, NK_PAGE, NK_WRITE_ONCE));
        accepted(0, nk_write_entry(leaf.table, leaf.index, nk_leaf(frame, NK_CAN_READ)));
        forget_page((nk_address)page);
        return leaf;
}

/* Call 6 declares the page with its bytes as they stand. From then on call 9 alone writes it, each byte once, and the
 * leaf can't be made writable again. */
static void declare_settings(struct memory *memory)
{
        nk_frame frame = take_frame(memory);
        volatile uint8_t *page = frame_bytes(frame);
        struct place leaf = fill_page(frame, memory);
        nk_region settings = accepted(NK_FIRST_REGION + 2, nk_declare_pages((nk_address)page, NK_PAGE, NK_WRITE_ONCE));
        store_faults(page);
        want_text("off", page);
        refused(NK_TOO_FREE, nk_write_entry(leaf.table, leaf.index, nk_leaf(frame, NK_CAN_WRITE)));
        accepted(0, nk_write(settings, 0, "on ", 3));
        refused(NK_WRITTEN_ONCE, nk_write(settings, 2, "ff", 2));
        refused(NK_NOT_ALLOCATED, nk_free(settings));
        store_faults(page + 2);
        want_text("on ", page);
}

void kernel_main(nk_frame first_free, uint64_t frames)
{
        struct memory memory = memory_at_start(first_free, frames);
        accepted(0, nk_set_handler((nk_address)trap_entry));
        configure();
        keep_journal();
        declare_image_page();
        declare_settings(&memory);
        print_decimal(accepted_calls);
        print(" calls accepted, ");
        print_decimal(refused_calls);
        print(" refused, ");
        print_decimal(faults);
        print(" stores faulted\n");
        end_run();
}
