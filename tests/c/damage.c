/* Wrong bytes in the words of a frame, by chance and by plan. */
#include "damage.h"

size_t sent_bytes(int word)
{
    return word == 0 ? CODED_HEADER : WORD;
}

size_t place_of(int word, size_t byte)
{
    return TAQWELIM_PREAMBLE_SIZE + (word == 0 ? byte : CODED_HEADER + 8 * byte + (size_t)word - 1);
}

static void change(uint8_t *bytes, int word, size_t byte)
{
    bytes[place_of(word, byte)] ^= (uint8_t)(1 + below(255));
}

void damage_word(uint8_t *bytes, int word, size_t count)
{
    uint8_t is_wrong[WORD] = {0};
    while (count > 0) {
        size_t byte = below(sent_bytes(word));
        if (is_wrong[byte])
            continue;
        is_wrong[byte] = 1;
        change(bytes, word, byte);
        count--;
    }
}

size_t damage_repairable(uint8_t *bytes, unsigned but)
{
    size_t wrong = 0;
    for (int word = 0; word < WORDS; word++) {
        size_t count = but >> word & 1 ? 0 : below(REPAIRABLE + 1);
        damage_word(bytes, word, count);
        wrong += count;
    }
    return wrong;
}

void damage_hopeless(uint8_t *bytes, int word)
{
    for (size_t i = 0; i < REPAIRABLE + 1; i++)
        bytes[place_of(word, sent_bytes(word) - 1 - i)] ^= 1;
}

size_t add_of_codeword(uint8_t *bytes, int word, size_t at, unsigned which)
{
    const uint8_t *generator = model_generator(); /* of degree 16, and at any place a codeword */
    size_t unsent = WORD - sent_bytes(word), added = 0;
    for (size_t i = 0; i < 17; i++) {
        if (!(which >> i & 1) || at + i < unsent)
            continue;
        bytes[place_of(word, at + i - unsent)] ^= generator[i];
        added++;
    }
    return added;
}
