/* A small outer kernel: it greets on the console port, asks the nested kernel to set a trap handler, and halts. */
#include <stdint.h>

#define CONSOLE_PORT 0xE9

/* The entry gate takes the call's number and four arguments in the registers of a C call, and answers in RAX. */
typedef uint64_t gate_t(uint64_t number, uint64_t a, uint64_t b, uint64_t c, uint64_t d);
#define ENTRY_GATE ((gate_t *)0xFFFFFF8000001000ull)

enum call { SET_TRAP = 1 };

/* Constants, initialized data and data that starts as zeros: one for each segment and for what the file doesn't fill. */
static const char greeting[] = "outer kernel: ";
static uint64_t free_frames = 1;
static uint64_t refusals[512];

static inline void console_byte(char byte)
{
        __asm__ volatile("outb %0, %1" : : "a"(byte), "Nd"((uint16_t)CONSOLE_PORT));
}

static void console(const char *text)
{
        while (*text)
                console_byte(*text++);
}

static void console_number(uint64_t number)
{
        char digits[20];
        int length = 0;
        do {
                digits[length++] = (char)('0' + number % 10);
                number /= 10;
        } while (number);
        while (length)
                console_byte(digits[--length]);
}

/* Where a trap leads: this kernel expects none, and doesn't return from one. The handler runs on the trap stack with IF
 * clear, below what the delivery pushed (docs/MACHINE.md, 5.2), and HLT there ends the run. */
__attribute__((noreturn)) static void trap_handler(void)
{
        console("unexpected trap\n");
        for (;;)
                __asm__ volatile("hlt");
}

void kernel_main(uint64_t first_free, uint64_t frames)
{
        free_frames += frames - first_free - 1;
        console(greeting);
        console_number(free_frames);
        console(" free frames\n");
        uint64_t answer = ENTRY_GATE(SET_TRAP, (uint64_t)trap_handler, 0, 0, 0);
        if (answer != 0 && answer < 512)
                refusals[answer]++;
        if (refusals[27] != 0)
                console("the handler's address is refused\n");
}
