/* SHA-256, by FIPS 180-4. */
#include "program.h"

enum { BLOCK = 64, WORDS = 8, STEPS = 64 };

static const uint32_t constants[STEPS] = {
        0x428A2F98, 0x71374491, 0xB5C0FBCF, 0xE9B5DBA5, 0x3956C25B, 0x59F111F1, 0x923F82A4, 0xAB1C5ED5,
        0xD807AA98, 0x12835B01, 0x243185BE, 0x550C7DC3, 0x72BE5D74, 0x80DEB1FE, 0x9BDC06A7, 0xC19BF174,
        0xE49B69C1, 0xEFBE4786, 0x0FC19DC6, 0x240CA1CC, 0x2DE92C6F, 0x4A7484AA, 0x5CB0A9DC, 0x76F988DA,
        0x983E5152, 0xA831C66D, 0xB00327C8, 0xBF597FC7, 0xC6E00BF3, 0xD5A79147, 0x06CA6351, 0x14292967,
        0x27B70A85, 0x2E1B2138, 0x4D2C6DFC, 0x53380D13, 0x650A7354, 0x766A0ABB, 0x81C2C92E, 0x92722C85,
        0xA2BFE8A1, 0xA81A664B, 0xC24B8B70, 0xC76C51A3, 0xD192E819, 0xD6990624, 0xF40E3585, 0x106AA070,
        0x19A4C116, 0x1E376C08, 0x2748774C, 0x34B0BCB5, 0x391C0CB3, 0x4ED8AA4A, 0x5B9CCA4F, 0x682E6FF3,
        0x748F82EE, 0x78A5636F, 0x84C87814, 0x8CC70208, 0x90BEFFFA, 0xA4506CEB, 0xBEF9A3F7, 0xC67178F2};

static const uint32_t start[WORDS] = {0x6A09E667, 0xBB67AE85, 0x3C6EF372, 0xA54FF53A,
                                      0x510E527F, 0x9B05688C, 0x1F83D9AB, 0x5BE0CD19};

static uint8_t text[TEXT_SIZE];

static uint32_t turned(uint32_t word, int count)
{
        return word >> count | word << (32 - count);
}

static uint32_t word_at(const uint8_t *bytes)
{
        return (uint32_t)bytes[0] << 24 | (uint32_t)bytes[1] << 16 | (uint32_t)bytes[2] << 8 | bytes[3];
}

/* Takes one block into the digest (FIPS 180-4, 6.2.2). */
static void take_block(uint32_t digest[WORDS], const uint8_t *block)
{
        uint32_t words[STEPS];
        for (int step = 0; step < 16; step++)
                words[step] = word_at(block + 4 * step);
        for (int step = 16; step < STEPS; step++) {
                uint32_t near = words[step - 2], far = words[step - 15];
                words[step] = (turned(near, 17) ^ turned(near, 19) ^ near >> 10) + words[step - 7] +
                              (turned(far, 7) ^ turned(far, 18) ^ far >> 3) + words[step - 16];
        }
        uint32_t a = digest[0], b = digest[1], c = digest[2], d = digest[3];
        uint32_t e = digest[4], f = digest[5], g = digest[6], h = digest[7];
        for (int step = 0; step < STEPS; step++) {
                uint32_t first = h + (turned(e, 6) ^ turned(e, 11) ^ turned(e, 25)) + ((e & f) ^ (~e & g)) +
                                 constants[step] + words[step];
                uint32_t second = (turned(a, 2) ^ turned(a, 13) ^ turned(a, 22)) + ((a & b) ^ (a & c) ^ (b & c));
                h = g, g = f, f = e, e = d + first;
                d = c, c = b, b = a, a = first + second;
        }
        digest[0] += a, digest[1] += b, digest[2] += c, digest[3] += d;
        digest[4] += e, digest[5] += f, digest[6] += g, digest[7] += h;
}

/* The first 64 bits of the digest of a message. */
static uint64_t digest_of(const uint8_t *message, size_t size)
{
        uint32_t digest[WORDS];
        uint8_t last[2 * BLOCK] = {0};
        size_t whole = size / BLOCK * BLOCK, left = size - whole, end = left < 56 ? BLOCK : 2 * BLOCK;
        for (int place = 0; place < WORDS; place++)
                digest[place] = start[place];
        for (size_t place = 0; place < whole; place += BLOCK)
                take_block(digest, message + place);
        for (size_t place = 0; place < left; place++)
                last[place] = message[whole + place];
        last[left] = 0x80;
        for (int byte = 0; byte < 8; byte++)
                last[end - 1 - (size_t)byte] = (uint8_t)((uint64_t)size * 8 >> 8 * byte);
        for (size_t place = 0; place < end; place += BLOCK)
                take_block(digest, last + place);
        return (uint64_t)digest[0] << 32 | digest[1];
}

uint64_t run_program(uint64_t rounds)
{
        uint64_t sum = 1;
        if (digest_of((const uint8_t *)"abc", 3) != 0xBA7816BF8F01CFEAu) /* FIPS 180-4's example */
                return 0;
        for (uint64_t round = 0; round < rounds; round++) {
                fill_text(text, TEXT_SIZE, round % TEXTS);
                sum = sum * 31 + digest_of(text, TEXT_SIZE);
        }
        return sum;
}
