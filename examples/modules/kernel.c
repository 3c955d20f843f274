/* A kernel that finds the modules that were joined with it by the directory, and calls each, one on the answer of the other. */
#include "console.h"
#include "nk.h"

/* The directory: how many modules there are, and where each begins and how many bytes it has. */
struct directory {
        uint64_t count;
        struct {
                uint64_t (*code)(uint64_t);
                uint64_t length;
        } module[];
};

#define DIRECTORY ((const volatile struct directory *)0xffffffffbffff000)

void kernel_main(nk_frame first_free, uint64_t frames)
{
        (void)first_free;
        (void)frames;
        uint64_t answer = 10;
        print_decimal(DIRECTORY->count);
        print(" modules\n");
        for (uint64_t i = 0; i < DIRECTORY->count; i++) {
                print_decimal(DIRECTORY->module[i].length);
                print(" bytes make ");
                print_decimal(answer);
                answer = DIRECTORY->module[i].code(answer);
                print(" ");
                print_decimal(answer);
                print("\n");
        }
        end_run();
}
