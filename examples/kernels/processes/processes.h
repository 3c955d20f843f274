/* What the kernel and the programs of its processes agree on: the pages, and what INT 47 asks for by RAX. */
#ifndef PROCESSES_H
#define PROCESSES_H

#include "nk.h"

#define CODE_PAGE NK_NUMBER(0x400000)  /* to execute */
#define CLOCK_PAGE NK_NUMBER(0x401000) /* to read: how often the timer came, in its first eight bytes */
#define STACK_PAGE NK_NUMBER(0x402000) /* to write */
#define SAY 1                          /* the number in RDI */
#define END 2

#ifndef __ASSEMBLER__
/* The code that each process finds at CODE_PAGE, and where in it each begins. */
extern const char programs[], programs_end[], counter[], intruder[];
#endif

#endif
