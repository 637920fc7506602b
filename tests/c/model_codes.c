/* The model's codes: check sums, the Reed-Solomon code and the scrambler, by their definitions. */
#include "model.h"

#include <string.h>

/* The remainder of the message times x^bits, top bit of each byte first. */
uint32_t model_crc(int bits, uint32_t polynomial, const uint8_t *bytes, size_t length)
{
    uint64_t top = (uint64_t)1 << bits, remainder = 0;
    for (size_t i = 0; i < length + (size_t)bits / 8; i++)
        for (int bit = 7; bit >= 0; bit--) {
            remainder = remainder << 1 | (i < length ? (unsigned)(bytes[i] >> bit & 1) : 0u);
            if (remainder & top)
                remainder ^= top | polynomial;
        }
    return (uint32_t)remainder;
}

uint16_t model_crc_16(const uint8_t *bytes, size_t length)
{
    return (uint16_t)model_crc(16, 0x1021, bytes, length);
}

uint32_t model_crc_32(const uint8_t *bytes, size_t length)
{
    return model_crc(32, 0x04C11DB7, bytes, length);
}

/* ---- the field with x^8 + x^7 + x^2 + x + 1 */

static uint8_t powers[510]; /* twice over, so that the sum of two exponents has its place */
static int exponents[256];

static void make_powers(void)
{
    unsigned x = 1;
    if (powers[0])
        return;
    for (int i = 0; i < 255; i++) {
        powers[i] = powers[i + 255] = (uint8_t)x;
        exponents[x] = i;
        x <<= 1;
        if (x & 0x100)
            x ^= 0x187;
    }
}

uint8_t model_power(unsigned exponent)
{
    make_powers();
    return powers[exponent % 255];
}

uint8_t model_product(uint8_t a, uint8_t b)
{
    make_powers();
    return a && b ? powers[exponents[a] + exponents[b]] : 0;
}

/* b is not 0. */
uint8_t model_quotient(uint8_t a, uint8_t b)
{
    make_powers();
    return a ? powers[exponents[a] + 255 - exponents[b]] : 0;
}

/* ---- the code of 255 bytes with roots 2^(11 j), j from 120 to 135 */

uint8_t model_root(int j)
{
    return model_power(11u * (120u + (unsigned)j));
}

/* The product of the 16 factors, highest power first. */
const uint8_t *model_generator(void)
{
    static uint8_t g[17];
    if (g[0])
        return g;
    g[0] = 1;
    for (int j = 0; j < 16; j++)
        for (int k = j + 1; k > 0; k--)
            g[k] ^= model_product(g[k - 1], model_root(j));
    return g;
}

/* The 16 parity bytes of data that stand `step` bytes apart, as they stand there. Zeros in front of the data change nothing. */
void model_parity(const uint8_t *data, size_t length, size_t step, uint8_t *parity)
{
    uint8_t rest[16] = {0};
    const uint8_t *g = model_generator();
    for (size_t i = 0; i < length; i++) {
        uint8_t lead = data[i * step] ^ rest[0];
        memmove(rest, rest + 1, 15);
        rest[15] = 0;
        for (int k = 0; lead && k < 16; k++)
            rest[k] ^= model_product(lead, g[k + 1]);
    }
    for (size_t k = 0; k < 16; k++)
        parity[k * step] = rest[k];
}

static uint8_t at_root(const uint8_t *bytes, size_t length, size_t step, uint8_t x, uint8_t value)
{
    for (size_t i = 0; i < length; i++)
        value = model_product(value, x) ^ bytes[i * step];
    return value;
}

/* Each of the 16 roots is a root of the word. */
int model_is_codeword(const uint8_t *data, size_t length, const uint8_t *parity, size_t step)
{
    for (int j = 0; j < 16; j++)
        if (at_root(parity, 16, step, model_root(j), at_root(data, length, step, model_root(j), 0)))
            return 0;
    return 1;
}

/* ---- the scrambler */

int model_taps_allowed(uint32_t taps)
{
    return taps < (UINT32_C(1) << 25) && taps % 2 == 1;
}

/* Adds s0, s1, .. to the bytes: s(k + 25) is the sum of the s(k + i) over the taps i. The bits of the last taps asked for are kept, since they cost most. */
void model_scramble(uint32_t taps, uint8_t *bytes, size_t length)
{
    static uint8_t key[TAQWELIM_FRAME_SIZE];
    static uint32_t made = 0;
    if (made != taps) {
        uint32_t stages = 7; /* s(k) is bit 0, s(k + 24) bit 24 */
        for (size_t i = 0; i < sizeof key; i++) {
            key[i] = 0;
            for (int bit = 7; bit >= 0; bit--) {
                uint32_t odd = 0;
                for (uint32_t ones = stages & taps; ones; ones &= ones - 1)
                    odd ^= 1;
                key[i] |= (uint8_t)((stages & 1) << bit);
                stages = stages >> 1 | odd << 24;
            }
        }
        made = taps;
    }
    for (size_t i = 0; i < length; i++)
        bytes[i] ^= key[i];
}
