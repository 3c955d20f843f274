/* A function whose immediate operand holds the bytes 0F 22 C0: MOV to CR0 for whoever jumps into the middle of the
 * instruction. The scan refuses the image and names the address of these bytes. */
#include <stdint.h>

volatile uint32_t answer;

__attribute__((noinline)) static uint32_t magic(uint32_t word)
{
        return word ^ 0x00C0220F;
}

void kernel_main(uint64_t first_free, uint64_t frames)
{
        answer = magic((uint32_t)(first_free + frames));
}
