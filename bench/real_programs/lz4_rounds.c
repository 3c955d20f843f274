/* LZ4: compresses a text, decompresses it, and compares. */
#define LZ4_STATIC_LINKING_ONLY
#include "lz4.h"
#include "program.h"

enum { PACKED_SIZE = LZ4_COMPRESSBOUND(TEXT_SIZE) };

static uint8_t text[TEXT_SIZE], packed[PACKED_SIZE], unpacked[TEXT_SIZE];
static LZ4_stream_t state;

uint64_t run_program(uint64_t rounds)
{
        uint64_t digest = 1;
        for (uint64_t round = 0; round < rounds; round++) {
                fill_text(text, TEXT_SIZE, round % TEXTS);
                int size = LZ4_compress_fast_extState(&state, (char *)text, (char *)packed, TEXT_SIZE, PACKED_SIZE, 1);
                if (size <= 0 || LZ4_decompress_safe((char *)packed, (char *)unpacked, size, TEXT_SIZE) != TEXT_SIZE ||
                    !are_equal(text, unpacked, TEXT_SIZE))
                        return 0;
                digest = fold_bytes(digest, packed, (size_t)size);
        }
        return digest;
}
