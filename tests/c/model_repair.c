/* The model's repair (paper 02, M-101): the error locator by Berlekamp's and Massey's algorithm, its roots by trying
 * every place, the errors by Forney's formula. Whatever comes of these is then judged by what the paper asks alone: a
 * codeword, in at most 8 bytes another than the word that came, and with zeros where nothing was sent. */
#include "model.h"

#include <string.h>

enum { NEAR = 8, SUMS = 16, FIRST = 120 };

/* A polynomial over the field, lowest power first; what is behind its degree is 0. */
typedef struct {
    uint8_t of[SUMS + 1];
} polynomial;

/* A power of the code's own element, 2^11: place n of a word, counted from its end, has the number with exponent n. */
static uint8_t number_of(int exponent)
{
    return model_power(11u * (unsigned)((exponent % WORD + WORD) % WORD));
}

static uint8_t value_at(const polynomial *p, uint8_t x)
{
    uint8_t value = 0;
    for (int i = SUMS; i >= 0; i--)
        value = model_product(value, x) ^ p->of[i];
    return value;
}

/* The word's values at the 16 roots of the code: sums over the errors, since the codeword's own are 0. */
static polynomial sums_of(const uint8_t *word)
{
    polynomial sums = {{0}};
    for (int j = 0; j < SUMS; j++)
        for (int i = 0; i < WORD; i++)
            sums.of[j] = model_product(sums.of[j], model_root(j)) ^ word[i];
    return sums;
}

/* p + factor x^shift q */
static polynomial plus_shifted(polynomial p, uint8_t factor, int shift, polynomial q)
{
    for (int i = shift; i <= SUMS; i++)
        p.of[i] ^= model_product(factor, q.of[i - shift]);
    return p;
}

/* The shortest rule by which each sum follows from those before it: 1 + .., a factor 1 - number x for each error. */
static polynomial locator_of(polynomial sums)
{
    polynomial rule = {{1}}, last = {{1}};
    int length = 0, shift = 1;
    uint8_t last_gap = 1;
    for (int j = 0; j < SUMS; j++, shift++) {
        uint8_t gap = 0;
        for (int i = 0; i <= length; i++)
            gap ^= model_product(rule.of[i], sums.of[j - i]);
        if (!gap)
            continue;
        polynomial before = rule;
        rule = plus_shifted(rule, model_quotient(gap, last_gap), shift, last);
        if (2 * length > j)
            continue;
        length = j + 1 - length;
        last = before;
        last_gap = gap;
        shift = 0;
    }
    return rule;
}

/* The sums times the locator, below x^16. */
static polynomial evaluator_of(polynomial sums, polynomial locator)
{
    polynomial product = {{0}};
    for (int i = 0; i < SUMS; i++)
        product = plus_shifted(product, locator.of[i], i, sums);
    product.of[SUMS] = 0;
    return product;
}

static polynomial derived(polynomial p)
{
    polynomial derivative = {{0}};
    for (int i = 1; i <= SUMS; i += 2) /* an even power has a derivative of 0 */
        derivative.of[i - 1] = p.of[i];
    return derivative;
}

/* Takes the error away from each place whose number's inverse is a root of the locator. */
static void search(uint8_t *word)
{
    polynomial sums = sums_of(word), locator = locator_of(sums), evaluator = evaluator_of(sums, locator),
               slope = derived(locator);
    for (int n = 0; n < WORD; n++) {
        uint8_t inverse = number_of(-n);
        if (value_at(&locator, inverse) || !value_at(&slope, inverse))
            continue;
        uint8_t error = model_quotient(value_at(&evaluator, inverse), value_at(&slope, inverse));
        word[WORD - 1 - n] ^= model_product(error, number_of(n * (1 - FIRST)));
    }
}

size_t model_differences(const uint8_t *a, const uint8_t *b, size_t length)
{
    size_t count = 0;
    for (size_t i = 0; i < length; i++)
        count += a[i] != b[i];
    return count;
}

static int is_codeword(const uint8_t *word)
{
    return model_is_codeword(word, WORD - 16, word + WORD - 16, 1);
}

/* Whether a codeword is near a word whose first bytes are zeros that were not sent; where one is, it is written in its
 * place. */
static int repair_word(uint8_t *word, size_t unsent)
{
    static const uint8_t zeros[WORD];
    uint8_t tried[WORD];
    if (is_codeword(word))
        return 1;
    memcpy(tried, word, WORD);
    search(tried);
    if (!is_codeword(tried) || model_differences(tried, word, WORD) > NEAR || memcmp(tried, zeros, unsent))
        return 0;
    memcpy(word, tried, WORD);
    return 1;
}

int model_repair_header(uint8_t *header)
{
    uint8_t word[WORD] = {0};
    memcpy(word + UNSENT, header, CODED_HEADER);
    if (!repair_word(word, UNSENT))
        return 0;
    memcpy(header, word + UNSENT, CODED_HEADER);
    return 1;
}

/* All eight words, every eighth byte each; those near which no codeword is stay. */
int model_repair_payload(uint8_t *payload)
{
    uint8_t word[WORD];
    int all = 1;
    for (size_t k = 0; k < 8; k++) {
        for (size_t i = 0; i < WORD; i++)
            word[i] = payload[8 * i + k];
        all &= repair_word(word, 0);
        for (size_t i = 0; i < WORD; i++)
            payload[8 * i + k] = word[i];
    }
    return all;
}
