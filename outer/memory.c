/* The four functions that a compiler may call by itself, in code without a library too. The string instructions keep
 * it from making a call of the function in its own body. */
#include <stddef.h>

void *memcpy(void *to, const void *from, size_t size);
void *memmove(void *to, const void *from, size_t size);
void *memset(void *to, int byte, size_t size);
int memcmp(const void *one, const void *other, size_t size);

void *memcpy(void *to, const void *from, size_t size)
{
        void *start = to;
        __asm__ volatile("rep movsb" : "+D"(to), "+S"(from), "+c"(size) : : "memory");
        return start;
}

void *memmove(void *to, const void *from, size_t size)
{
        if ((char *)to <= (const char *)from || (char *)to >= (const char *)from + size)
                return memcpy(to, from, size);
        char *last_to = (char *)to + size - 1;
        const char *last_from = (const char *)from + size - 1;
        __asm__ volatile("std\n\trep movsb\n\tcld" : "+D"(last_to), "+S"(last_from), "+c"(size) : : "cc", "memory");
        return to;
}

void *memset(void *to, int byte, size_t size)
{
        void *start = to;
        __asm__ volatile("rep stosb" : "+D"(to), "+c"(size) : "a"(byte) : "memory");
        return start;
}

int memcmp(const void *one, const void *other, size_t size)
{
        const volatile unsigned char *left = one;
        const volatile unsigned char *right = other;
        for (size_t place = 0; place < size; place++) {
                int difference = left[place] - right[place];
                if (difference)
                        return difference;
        }
        return 0;
}
