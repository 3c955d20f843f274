/* A kernel that keeps its list of processes in a region whose writes are logged, and an attacker in it who takes a
 * process off the list and lets it run on, as rootkits do. README.md has each record of the log. */
#include <stddef.h>

#include "console.h"
#include "nk.h"

#define SLOTS 5
#define HEAD 0 /* the slot that the list begins with, which no process has */

/* A next of 0 ends the list; any other is one more than the slot where it goes on. */
struct slot {
        uint64_t pid;
        uint64_t next;
};

typedef char program_name[8];

static const program_name programs[] = {"init", "shell", "miner", "cron"}; /* by pid, from 1 on */
static nk_region list, names;
/* The bytes of the two regions, which can be read where they stand, and not stored to. */
static const struct slot *slots;
static const program_name *slot_names;
/* What runs, by slot. A scheduler goes by data of its own, and never looks at the list. */
static uint64_t ready[SLOTS];

/* Call 9 is the one way to write a region; each that is accepted is a record of the log. */
static void put(nk_region region, uint64_t offset, const void *source, uint64_t size)
{
        struct nk_answer answer = nk_write(region, offset, source, size);
        if (nk_is_accepted(answer))
                return;
        print(nk_rule_text(answer.value));
        print("\n");
        end_run();
}

static void set_pid(uint64_t slot, uint64_t pid)
{
        put(list, slot * sizeof(struct slot) + offsetof(struct slot, pid), &pid, sizeof pid);
}

static void set_next(uint64_t slot, uint64_t next)
{
        put(list, slot * sizeof(struct slot) + offsetof(struct slot, next), &next, sizeof next);
}

/* The first slot behind the head with this pid; 0 is that of a free slot. */
static uint64_t slot_of(uint64_t pid)
{
        uint64_t slot = HEAD + 1;
        while (slots[slot].pid != pid)
                slot++;
        return slot;
}

/* The list leads past the slot from now on. */
static void take_off(uint64_t slot)
{
        uint64_t before = HEAD;
        while (slots[before].next != slot + 1)
                before = slots[before].next - 1;
        set_next(before, slots[slot].next);
}

/* A process begins behind the head. Its pid is written last, once the list leads to its slot. */
static void begin_process(uint64_t pid)
{
        uint64_t slot = slot_of(0);
        put(names, slot * sizeof(program_name), programs[pid - 1], sizeof(program_name));
        set_next(slot, slots[HEAD].next);
        set_next(HEAD, slot + 1);
        set_pid(slot, pid);
        ready[slot] = pid;
}

/* And its pid goes first, while the list still leads to it: so no process is ever off the list. */
static void end_process(uint64_t pid)
{
        uint64_t slot = slot_of(pid);
        ready[slot] = 0;
        set_pid(slot, 0);
        take_off(slot);
}

/* The attack: the last step of an end alone. */
static void hide_process(uint64_t pid)
{
        take_off(slot_of(pid));
}

static void print_process(uint64_t pid, uint64_t slot)
{
        print(" ");
        print_decimal(pid);
        print(" ");
        print(slot_names[slot]);
}

/* What the kernel says runs. It ends with as many as there may be, since the list may lead anywhere. */
static void print_list(void)
{
        uint64_t next = slots[HEAD].next;
        print("listed:");
        for (uint64_t count = 1; count < SLOTS && next >= 1 && next <= SLOTS; count++) {
                print_process(slots[next - 1].pid, next - 1);
                next = slots[next - 1].next;
        }
        print("\n");
}

/* What runs: a process says which it is. */
static void run_processes(void)
{
        print("run:");
        for (uint64_t slot = 0; slot < SLOTS; slot++)
                if (ready[slot])
                        print_process(ready[slot], slot);
        print("\n");
}

/* Another attack: a slot that leads to itself, and back; one off the list, whose pid then is another; and a head that
 * leads to a slot that there isn't. */
static void break_list(void)
{
        uint64_t first = slots[HEAD].next - 1;
        uint64_t next = slots[first].next;
        set_next(first, first + 1);
        print_list();
        set_next(first, next);
        print_list();
        hide_process(3);
        set_pid(next - 1, 99);
        set_next(HEAD, SLOTS + 1);
}

void kernel_main(nk_frame first_free, uint64_t frames)
{
        (void)first_free;
        (void)frames;
        struct nk_answer answer = nk_allocate(SLOTS * sizeof(struct slot), NK_WRITE_LOG);
        list = answer.value;
        slots = (const struct slot *)answer.place;
        answer = nk_allocate(SLOTS * sizeof(program_name), NK_WRITE_LOG);
        names = answer.value;
        slot_names = (const program_name *)answer.place;

        begin_process(1);
        begin_process(2);
        begin_process(3);
        end_process(2);
        begin_process(4);
        print_list();
        run_processes();
        if (read_byte() < 0)
                hide_process(3);
        else
                break_list();
        print_list();
        run_processes();
        end_run();
}
