/* The text that the programs work on, and a digest of what they made of it. */
#include "program.h"

static const char words[] =
        "the    of     and    page   frame  table  kernel memory write  read   "
        "entry  leaf   root   trap   gate   call   answer refuse a      in     "
        "to     is     that   it     stands before behind number byte   word   "
        "region policy ";

enum { WORD_STEP = 7, WORDS = 32, LINE = 72 };

/* The next state of a generator, of which the high bits are the best. */
static uint64_t next_state(uint64_t state)
{
        return state * 6364136223846793005u + 1442695040888963407u;
}

/* Puts a word and a space, where there is room, and gives the place behind. */
static size_t put_word(uint8_t *text, size_t place, size_t size, const char *word)
{
        while (place < size && *word != ' ')
                text[place++] = (uint8_t)*word++;
        if (place < size)
                text[place++] = ' ';
        return place;
}

static size_t put_number(uint8_t *text, size_t place, size_t size, unsigned number)
{
        char digits[12];
        unsigned first = sizeof digits - 1;
        digits[first] = ' ';
        do {
                digits[--first] = (char)('0' + number % 10);
                number /= 10;
        } while (number);
        return put_word(text, place, size, digits + first);
}

void fill_text(uint8_t *text, size_t size, uint64_t seed)
{
        uint64_t state = next_state(seed);
        size_t place = 0, line = 0;
        while (place < size) {
                state = next_state(state);
                if (state >> 60 == 0)
                        place = put_number(text, place, size, (unsigned)(state >> 44 & 0xFFFF));
                else
                        place = put_word(text, place, size, words + WORD_STEP * (state >> 55 & (WORDS - 1)));
                if (place - line > LINE) {
                        text[place - 1] = '\n';
                        line = place;
                }
        }
}

uint64_t fold_bytes(uint64_t digest, const uint8_t *bytes, size_t size)
{
        for (size_t place = 0; place < size; place++)
                digest = (digest ^ bytes[place]) * 0x100000001B3u;
        return digest;
}

int are_equal(const uint8_t *one, const uint8_t *other, size_t size)
{
        for (size_t place = 0; place < size; place++)
                if (one[place] != other[place])
                        return 0;
        return 1;
}
