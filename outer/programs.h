/* Users' programs that are linked into the image: outer/build --user makes an object NAME.o of C and assembly files,
 * and a kernel that links it declares
 *
 *         extern const struct program program_NAME;
 *
 * program_NAME_end stands behind the program's last byte. */
#ifndef PROGRAMS_H
#define PROGRAMS_H

#include "nk.h"
#include "tables.h"

/* The head, which user.ld puts at a program's first byte. The addresses are the user's own; start and data are those of
 * pages. From zeros on the program isn't in the image. */
struct program {
        nk_address start; /* where this head is mapped */
        nk_address entry; /* _start */
        nk_address data;  /* what is below may be read and executed, and from here on read and written */
        nk_address zeros;
        nk_address end;
};

/* Maps a program's pages below a root for a user, each to a frame of its own, which is filled; or none of them, and
 * NK_BAD_FRAME says that memory had too few frames. Tables that it took for them stay. */
uint64_t map_program(struct memory *memory, nk_frame root, const struct program *program);

/* Unmaps the pages of a program that map_program has mapped below this root, and gives their frames back. */
uint64_t unmap_program(struct memory *memory, nk_frame root, const struct program *program);

#endif
