/* Stands between a program and the C library, by LD_PRELOAD, and makes one call go wrong. Numbers count from 1.
   COUNTED      the file that gets the number of the program's allocations
   REFUSED      the number of the allocation that is refused
   SHRUNK, AT   the file that is cut to its first byte just before the read of this number */
#define _GNU_SOURCE
#include <dlfcn.h>
#include <errno.h>
#include <stdio.h>
#include <stdlib.h>
#include <unistd.h>

static unsigned long allocations, reads;

static unsigned long number_of(const char *name)
{
        const char *number = getenv(name);

        return number ? strtoul(number, NULL, 10) : 0;
}

static void *next(const char *name)
{
        void *found = dlsym(RTLD_NEXT, name);

        if (!found)
                abort();
        return found;
}

static int is_refused(void)
{
        if (++allocations != number_of("REFUSED"))
                return 0;
        errno = ENOMEM;
        return 1;
}

void *malloc(size_t size)
{
        static void *(*real)(size_t);

        if (!real)
                real = (void *(*)(size_t))next("malloc");
        return is_refused() ? NULL : real(size);
}

void *realloc(void *old, size_t size)
{
        static void *(*real)(void *, size_t);

        if (!real)
                real = (void *(*)(void *, size_t))next("realloc");
        return is_refused() ? NULL : real(old, size);
}

ssize_t read(int file, void *into, size_t size)
{
        static ssize_t (*real)(int, void *, size_t);

        if (!real)
                real = (ssize_t (*)(int, void *, size_t))next("read");
        if (++reads == number_of("AT") && getenv("SHRUNK") && truncate(getenv("SHRUNK"), 1) != 0)
                abort();
        return real(file, into, size);
}

__attribute__((destructor)) static void end(void)
{
        unsigned long counted = allocations;
        FILE *file = getenv("COUNTED") ? fopen(getenv("COUNTED"), "w") : NULL;

        if (!file)
                return;
        fprintf(file, "%lu\n", counted);
        fclose(file);
}
