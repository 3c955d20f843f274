/* Two processes at CPL 3, each below a root of its own. The plan's timer switches them, a page is brought in when it is
 * first used, and a process that faults otherwise dies, while the other goes on. */
#include "console.h"
#include "nk.h"
#include "processes.h"
#include "tables.h"
#include "traps.h"

#define PROCESSES 2
#define TIMER NK_FIRST_IRQ
#define PAGE_IS_THERE 1 /* P, of a page fault's error code */

struct process {
        nk_frame root;
        nk_frame stack; /* 0 till it is brought in */
        struct frame registers; /* while another process runs */
        int lives;
};

static struct process processes[PROCESSES];
static struct process *current = &processes[0];
static struct memory memory;
static nk_frame code, clock;
static volatile uint64_t *ticks;
static uint64_t switches, pages, refusals;

static void must(uint64_t answer)
{
        if (answer == NK_ACCEPTED)
                return;
        refusals++;
        print(nk_rule_text(answer));
        print("\n");
}

static void tell(const char *what)
{
        print("process ");
        print_decimal((uint64_t)(current - processes) + 1);
        print(what);
}

static void start_process(struct process *process, const char *start)
{
        nk_address address = CODE_PAGE + ((nk_address)start - (nk_address)programs);
        must(make_root(&memory, &process->root));
        process->registers = user_frame(address, STACK_PAGE + NK_PAGE, NK_INTERRUPT_FLAG);
        process->lives = 1;
}

/* The next that lives, the current one last; none where none lives. */
static struct process *next_process(void)
{
        uint64_t place = (uint64_t)(current - processes);
        for (uint64_t step = 1; step <= PROCESSES; step++) {
                struct process *next = &processes[(place + step) % PROCESSES];
                if (next->lives)
                        return next;
        }
        return 0;
}

/* A process is its registers and its root: traps.S returns to what stands in the frame. */
static void switch_to(struct process *next, struct frame *frame)
{
        current->registers = *frame;
        *frame = next->registers;
        current = next;
        must(load_root(next->root));
}

static void serve_timer(struct frame *frame)
{
        struct process *next = next_process();
        ++*ticks;
        if (next == current)
                return;
        switches++;
        switch_to(next, frame);
}

static int give_page(nk_address page, nk_frame frame, unsigned rights)
{
        uint64_t answer = map_page(&memory, current->root, page, frame, rights | NK_FOR_USER);
        must(answer);
        if (answer != NK_ACCEPTED)
                return 0;
        pages++;
        tell(" gets page ");
        print_hexadecimal(page);
        print("\n");
        return 1;
}

/* Whether the page is there now. Code and clock are one frame each for all processes, a stack is a process's own. */
static int bring_in(nk_address page)
{
        switch (page) {
        case CODE_PAGE:
                return give_page(page, code, NK_CAN_EXECUTE);
        case STACK_PAGE:
                current->stack = take_frame(&memory);
                return give_page(page, current->stack, NK_CAN_WRITE);
        case CLOCK_PAGE:
                return give_page(page, clock, NK_CAN_READ);
        default:
                return 0;
        }
}

/* The root in use can't be undone, so another is loaded first. */
static void end_process(struct frame *frame)
{
        struct process *ended = current;
        ended->lives = 0;
        struct process *next = next_process();
        if (next)
                switch_to(next, frame);
        else
                must(load_root(NK_START_ROOT));
        must(undo_root(&memory, ended->root));
        give_frame(&memory, ended->stack); /* refused of 0, where it had none */
        if (!next)
                leave_user(0);
}

static void serve(struct frame *frame)
{
        if (frame->rax == SAY) {
                tell(" says ");
                print_decimal(frame->rdi);
                print("\n");
        } else {
                tell(" ends\n");
                end_process(frame);
        }
}

static void kill(struct frame *frame)
{
        tell(" dies of vector ");
        print_decimal(frame->vector);
        print(", error ");
        print_hexadecimal(frame->error);
        print("\n");
        end_process(frame);
}

static void serve_page_fault(struct frame *frame)
{
        nk_address page = fault_address() / NK_PAGE * NK_PAGE;
        if (frame->error & PAGE_IS_THERE || !bring_in(page))
                kill(frame);
}

void trap(struct frame *frame)
{
        if (frame->cs != NK_USER_CS) {
                print("the kernel itself faults, so the run ends\n");
                end_run();
        }
        switch (frame->vector) {
        case TIMER:
                serve_timer(frame);
                break;
        case NK_USER_VECTOR:
                serve(frame);
                break;
        case NK_PAGE_FAULT:
                serve_page_fault(frame);
                break;
        default:
                /* Of interrupts the timer alone is served. */
                if (frame->vector < NK_FIRST_IRQ)
                        kill(frame);
                break;
        }
}

static void summarize(void)
{
        print_decimal(switches);
        print(" switches by the timer, ");
        print_decimal(pages);
        print(" pages brought in, ");
        print_decimal(refusals);
        print(" calls refused\n");
}

void kernel_main(nk_frame first_free, uint64_t frames)
{
        memory = memory_at_start(first_free, frames);
        code = take_frame(&memory);
        clock = take_frame(&memory);
        ticks = frame_bytes(clock);
        __builtin_memcpy(frame_bytes(code), programs, (uint64_t)(programs_end - programs));
        must(nk_set_handler((nk_address)trap_entry).value);
        start_process(&processes[0], counter);
        start_process(&processes[1], intruder);
        must(load_root(current->root));
        enter_user(current->registers.rip, current->registers.rsp, current->registers.rflags);
        summarize();
        end_run();
}
