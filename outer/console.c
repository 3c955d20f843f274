#include "console.h"

#include "nk.h"

static uint8_t port_in(uint16_t port)
{
        uint8_t byte;
        __asm__ volatile("inb %1, %0" : "=a"(byte) : "Nd"(port));
        return byte;
}

void print_byte(char byte)
{
        __asm__ volatile("outb %0, %1" : : "a"(byte), "Nd"((uint16_t)NK_CONSOLE_PORT));
}

void print(const char *text)
{
        while (*text)
                print_byte(*text++);
}

static void print_number(uint64_t number, unsigned base)
{
        char digits[20];
        int length = 0;
        do {
                digits[length++] = "0123456789abcdef"[number % base];
                number /= base;
        } while (number);
        while (length)
                print_byte(digits[--length]);
}

void print_decimal(uint64_t number)
{
        print_number(number, 10);
}

void print_hexadecimal(uint64_t number)
{
        print_number(number, 16);
}

int read_byte(void)
{
        return port_in(NK_INPUT_LEFT_PORT) ? port_in(NK_INPUT_PORT) : -1;
}

int read_line(char *line, int size)
{
        int length = 0;
        int byte = read_byte();
        if (byte < 0)
                return -1;
        for (; byte >= 0 && byte != '\n'; byte = read_byte())
                if (length < size - 1)
                        line[length++] = (char)byte;
        line[length] = 0;
        return length;
}

void end_run(void)
{
        __asm__ volatile("cli");
        for (;;)
                __asm__ volatile("hlt");
}
