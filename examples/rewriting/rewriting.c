/* A kernel whose user rewrites the code that it is running. Two frames are mapped at two addresses each, which the user
 * may write and execute. INPUT has what stands next to the border of the first two pages, before it and behind it, and
 * then what the plan's interrupts write there through the direct map: a place of two bytes, and a byte. Where the user
 * faults, a sum of its registers is told, and it goes on elsewhere. The interrupt for which nothing is left ends it, and
 * a sum of its code is told. */
#include "console.h"
#include "nk.h"
#include "tables.h"
#include "traps.h"

#define CODE NK_NUMBER(0x400000)  /* the first frame, and behind it the second */
#define ALIAS NK_NUMBER(0x500000) /* the same */
#define DATA NK_NUMBER(0x600000)
#define HALF 256 /* so many bytes of a page are the user's */
#define MOST_FAULTS 24
#define STRIDE 37 /* from fault to fault the user goes on so many bytes farther */

static struct memory memory;
static unsigned char *pages[2];
static uint64_t faults;

static void must(uint64_t answer)
{
        if (answer == NK_ACCEPTED)
                return;
        print(nk_rule_text(answer));
        print("\n");
        end_run();
}

static unsigned char *map_frame(nk_address address, nk_address alias)
{
        nk_frame frame = take_frame(&memory);
        must(map_page(&memory, NK_START_ROOT, address, frame, NK_CAN_WRITE | NK_CAN_EXECUTE | NK_FOR_USER));
        if (alias)
                must(map_page(&memory, NK_START_ROOT, alias, frame, NK_CAN_WRITE | NK_CAN_EXECUTE | NK_FOR_USER));
        return frame_bytes(frame);
}

/* A byte next to the border, by its number. */
static unsigned char *byte_at(unsigned place)
{
        place %= 2 * HALF;
        return place < HALF ? pages[0] + NK_PAGE - HALF + place : pages[1] + place - HALF;
}

static void tell_number(char name, uint64_t number)
{
        print_byte(name);
        print_hexadecimal(number);
}

static uint64_t sum_of(const void *bytes, unsigned size)
{
        const uint64_t *words = bytes;
        uint64_t sum = 0;
        for (unsigned i = 0; i < size / 8; i++)
                sum = (sum << 5 | sum >> 59) + words[i];
        return sum;
}

/* What the user has come to: where it stands, and a sum of its registers. */
static void tell(const struct frame *frame)
{
        tell_number('v', frame->vector);
        tell_number(' ', frame->rip);
        tell_number(' ', sum_of(frame, sizeof *frame));
        print("\n");
}

static void finish(const struct frame *frame)
{
        tell(frame);
        tell_number('s', sum_of(byte_at(0), HALF));
        tell_number(' ', sum_of(byte_at(HALF), HALF));
        print("\n");
        leave_user(0);
}

static void rewrite(const struct frame *frame)
{
        int low = read_byte();
        int high = read_byte();
        int byte = read_byte();
        if (byte < 0)
                finish(frame);
        *byte_at((unsigned)(high * 256 + low)) = (unsigned char)byte;
}

void trap(struct frame *frame)
{
        if (frame->vector >= NK_FIRST_IRQ && frame->vector != NK_USER_VECTOR) {
                rewrite(frame);
                return;
        }
        if (frame->vector == NK_USER_VECTOR || faults == MOST_FAULTS)
                finish(frame);
        faults++;
        tell(frame);
        frame->rip = CODE + NK_PAGE - HALF + faults * STRIDE % (2 * HALF);
        frame->rsp = DATA + NK_PAGE / 2;
}

void kernel_main(nk_frame first_free, uint64_t frames)
{
        memory = memory_at_start(first_free, frames);
        must(nk_set_handler((nk_address)trap_entry).value);
        pages[0] = map_frame(CODE, ALIAS);
        pages[1] = map_frame(CODE + NK_PAGE, ALIAS + NK_PAGE);
        map_frame(DATA, 0);
        for (unsigned i = 0; i < 2 * HALF; i++)
                *byte_at(i) = (unsigned char)read_byte();
        print("begins\n");
        enter_user(CODE + NK_PAGE - HALF, DATA + NK_PAGE / 2, NK_INTERRUPT_FLAG);
        print("ends\n");
        end_run();
}
