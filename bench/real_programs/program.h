/* What the programs have in common: what each defines, and the text that they work on. */
#ifndef PROGRAM_H
#define PROGRAM_H
#include <stddef.h>
#include <stdint.h>

#define TEXT_SIZE 65536
#define TEXTS 4                 /* the rounds go through so many texts again and again */

/* Makes so many rounds, each on a text. The answer depends on each byte that was made, and is 0 where a check
 * of the program's own fails. */
uint64_t run_program(uint64_t rounds);

/* Fills a text with words, numbers and lines that this seed chooses. */
void fill_text(uint8_t *text, size_t size, uint64_t seed);

/* Folds bytes into a digest: FNV-1a over 64 bits. */
uint64_t fold_bytes(uint64_t digest, const uint8_t *bytes, size_t size);

/* Whether the bytes are the same. */
int are_equal(const uint8_t *one, const uint8_t *other, size_t size);

#endif
