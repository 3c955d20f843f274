/* Runs the flat program in the file `flat` in Unicorn until it halts, with a hook on each instruction that does nothing
 * but count, and writes what the program tells on port E9, then the number of instructions. */
#include <stdint.h>
#include <stdio.h>
#include <unicorn/unicorn.h>

#define HOME 0x10000
#define SIZE 0x10000

static uint8_t memory[SIZE] __attribute__((aligned(4096)));

static void on_instruction(uc_engine *engine, uint64_t address, uint32_t size, void *count)
{
        (void)engine, (void)address, (void)size;
        ++*(uint64_t *)count;
}

static void on_output(uc_engine *engine, uint32_t port, int size, uint32_t value, void *none)
{
        (void)engine, (void)size, (void)none;
        if (port == 0xE9)
                putchar((int)value);
}

int main(void)
{
        FILE *file = fopen("flat", "rb");
        uc_engine *engine;
        uc_hook counting, telling;
        uint64_t count = 0;
        int failed = !file || fread(memory, 1, SIZE, file) == 0
                || uc_open(UC_ARCH_X86, UC_MODE_64, &engine)
                || uc_mem_map_ptr(engine, HOME, SIZE, UC_PROT_ALL, memory)
                || uc_hook_add(engine, &counting, UC_HOOK_CODE, (void *)on_instruction, &count, 1, 0)
                || uc_hook_add(engine, &telling, UC_HOOK_INSN, (void *)on_output, NULL, 1, 0, UC_X86_INS_OUT)
                || uc_emu_start(engine, HOME, 0, 0, 0);
        printf("\n%llu\n", (unsigned long long)count);
        return failed;
}
