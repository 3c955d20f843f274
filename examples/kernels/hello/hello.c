/* A kernel that greets, tells how much memory is free, says each line of INPUT again with its number, and ends. */
#include "console.h"
#include "nk.h"

static void say_lines(void)
{
        char line[40];
        for (uint64_t number = 1; read_line(line, sizeof line) >= 0; number++) {
                print_decimal(number);
                print(" <");
                print(line);
                print(">\n");
        }
}

void kernel_main(nk_frame first_free, uint64_t frames)
{
        print("hello from frame ");
        print_decimal(first_free);
        print(" of ");
        print_decimal(frames);
        print("\n");
        say_lines();
        print("end\n");
        end_run();
}
