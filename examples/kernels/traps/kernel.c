/* A kernel that takes what traps and interrupts there are and goes on: INT3 with another trap inside, an instruction
 * that isn't one, INT 13, which pushes no error code, two page faults that it mends, two interrupts of the plan, and a
 * user's code that it enters and leaves. */
#include "console.h"
#include "nk.h"
#include "tables.h"
#include "traps.h"

#define MENDED_PAGE NK_NUMBER(0x400000)
#define USER_CODE NK_NUMBER(0x600000)
#define USER_STACK NK_NUMBER(0x601000)
#define FIRST_IRQ_WANTED 33
#define SECOND_IRQ_WANTED 34

extern const char user_code[], user_code_end[];

static struct memory memory;
static nk_frame root;
static volatile char *user_stack;
static volatile uint64_t interrupts;
static uint64_t refusals;

static void must(uint64_t answer)
{
        if (answer == NK_ACCEPTED)
                return;
        refusals++;
        print(nk_rule_text(answer));
        print("\n");
}

static void tell(const struct frame *frame)
{
        print(frame->cs == NK_USER_CS ? "user vector " : "vector ");
        print_decimal(frame->vector);
        print(" error ");
        print_hexadecimal(frame->error);
        print("\n");
}

/* The page that was missing is mapped to a frame, and the instruction is tried again. */
static void mend(void)
{
        nk_address address = fault_address();
        print("mends ");
        print_hexadecimal(address);
        print("\n");
        must(map_page(&memory, root, address, take_frame(&memory), NK_CAN_WRITE));
}

/* What a user asks for. */
static void serve(struct frame *frame)
{
        if (frame->rax == 1)
                print_byte((char)frame->rdi);
        else
                leave_user(frame->rdi);
        print("\n");
}

void trap(struct frame *frame)
{
        tell(frame);
        switch (frame->vector) {
        case NK_BREAKPOINT:
                /* Another delivery while this one is served: the frame isn't on the trap stack any more. */
                __asm__ volatile("int $4");
                break;
        case NK_UNDEFINED:
                frame->rip += 2; /* past UD2 */
                break;
        case NK_PROTECTION:
                if (frame->cs == NK_USER_CS)
                        frame->rip += 1; /* past the user's HLT */
                break;
        case NK_PAGE_FAULT:
                mend();
                break;
        case FIRST_IRQ_WANTED:
                interrupts++;
                break;
        case SECOND_IRQ_WANTED:
                *user_stack = 1;
                break;
        case NK_USER_VECTOR:
                serve(frame);
                break;
        default:
                break;
        }
}

static void take_traps(void)
{
        volatile char *page = (volatile char *)MENDED_PAGE;
        __asm__ volatile("int3");
        __asm__ volatile("ud2");
        __asm__ volatile("int $13");
        /* Hidden from the compiler, as in frame_bytes. */
        __asm__("" : "+r"(page));
        page[5] = 'm';
        print_byte(page[5]);
        print("\n");
        /* The page is taken away, and is missing again once the processor keeps nothing of it. */
        must(undo_entry(leaf_of_page(root, MENDED_PAGE)));
        forget_page(MENDED_PAGE);
        page[6] = 'n';
        print_byte(page[6]);
        print("\n");
}

/* STI lets no interrupt come before the next instruction has ended, so none is lost between the two. */
static void wait_for_interrupt(void)
{
        while (!interrupts)
                __asm__ volatile("sti\n\thlt\n\tcli" : : : "memory");
}

static uint64_t run_user(void)
{
        nk_frame code = take_frame(&memory);
        nk_frame stack = take_frame(&memory);
        char *page = (char *)frame_bytes(code);
        for (const char *byte = user_code; byte < user_code_end; byte++)
                *page++ = *byte;
        user_stack = (volatile char *)frame_bytes(stack);
        must(map_page(&memory, root, USER_CODE, code, NK_CAN_EXECUTE | NK_FOR_USER));
        must(map_page(&memory, root, USER_STACK, stack, NK_CAN_WRITE | NK_FOR_USER));
        return enter_user(USER_CODE, USER_STACK + NK_PAGE, NK_INTERRUPT_FLAG);
}

void kernel_main(nk_frame first_free, uint64_t frames)
{
        memory = memory_at_start(first_free, frames);
        must(nk_set_handler((nk_address)trap_entry).value);
        must(make_root(&memory, &root));
        must(load_root(root));
        take_traps();
        wait_for_interrupt();
        uint64_t answer = run_user();
        print("the user's answer is ");
        print_decimal(answer);
        print(refusals ? ", and a call was refused\n" : "\n");
        end_run();
}
