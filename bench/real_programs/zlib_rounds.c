/* zlib: deflates a text at level 6, inflates it, and compares. */
#include "program.h"
#include "zlib.h"

static uint8_t text[TEXT_SIZE], packed[TEXT_SIZE + 1024], unpacked[TEXT_SIZE];
static uint64_t arena[65536];           /* 512 KiB, of which a round takes what it needs */
static size_t taken;

static voidpf take(voidpf unused, uInt items, uInt size)
{
        (void)unused;
        size_t words = ((size_t)items * size + 7) / 8;
        if (words > sizeof arena / 8 - taken)
                return Z_NULL;
        taken += words;
        return arena + taken - words;
}

static void give_back(voidpf unused, voidpf place)
{
        (void)unused;
        (void)place;
}

/* The number of packed bytes, or 0. */
static size_t pack(void)
{
        z_stream stream = {.zalloc = take, .zfree = give_back, .next_in = text, .avail_in = TEXT_SIZE,
                           .next_out = packed, .avail_out = sizeof packed};
        taken = 0;
        if (deflateInit(&stream, 6) != Z_OK || deflate(&stream, Z_FINISH) != Z_STREAM_END)
                return 0;
        deflateEnd(&stream);
        return stream.total_out;
}

/* Whether so many packed bytes give the text. */
static int unpack(size_t size)
{
        z_stream stream = {.zalloc = take, .zfree = give_back, .next_in = packed, .avail_in = (uInt)size,
                           .next_out = unpacked, .avail_out = sizeof unpacked};
        taken = 0;
        if (inflateInit(&stream) != Z_OK || inflate(&stream, Z_FINISH) != Z_STREAM_END)
                return 0;
        inflateEnd(&stream);
        return stream.total_out == TEXT_SIZE && are_equal(text, unpacked, TEXT_SIZE);
}

uint64_t run_program(uint64_t rounds)
{
        uint64_t digest = 1;
        for (uint64_t round = 0; round < rounds; round++) {
                fill_text(text, TEXT_SIZE, round % TEXTS);
                size_t size = pack();
                if (!size || !unpack(size))
                        return 0;
                digest = fold_bytes(digest, packed, size);
        }
        return digest;
}
