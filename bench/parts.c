/* Calls a part of the library COUNT times: parts NAME COUNT [TAPS]. Writes the frame at hand to standard output. */
#include "inputs.h"

void part_write_parity(uint8_t *payload, size_t length);
void part_remainders(const uint8_t *payload, size_t length, uint8_t *out, size_t out_length);
uint8_t part_repair_word(uint8_t *word, size_t length, const uint8_t *remainder, size_t remainder_length);
uint32_t part_crc_32(const uint8_t *bytes, size_t length);
void part_scramble(uint32_t taps, uint8_t *bytes, size_t length);
void part_build(uint32_t taps, const uint8_t *area, size_t area_length, uint8_t *out, size_t out_length);
uint8_t part_open(uint32_t taps, const uint8_t *frame, size_t frame_length, uint8_t *area, size_t area_length);

static uint8_t area[1908], payload[2040], frame[2081], opened[1908], remainders[128];
static uint8_t damaged[255], remainder[16], word[255]; /* a word with 8 wrong bytes, and what division leaves of it */
static volatile uint32_t sum;
static uint32_t taps;

/* Every eighth byte, in a row. */
static void gather(uint8_t *to, const uint8_t *from, size_t count)
{
    for (size_t i = 0; i < count; i++)
        to[i] = from[8 * i];
}

static void prepare_word(void)
{
    uint8_t bytes[sizeof payload], left[sizeof remainders];
    memcpy(bytes, payload, sizeof bytes);
    damage_word(bytes, 8, 31);
    part_remainders(bytes, sizeof bytes, left, sizeof left);
    gather(damaged, bytes, sizeof damaged);
    gather(remainder, left, sizeof remainder);
}

static void repair_word(const char *name)
{
    memcpy(word, damaged, sizeof word);
    must(!part_repair_word(word, sizeof word, remainder, sizeof remainder), name);
}

static void call(const char *name)
{
    if (!strcmp(name, "write_parity"))
        part_write_parity(payload, sizeof payload);
    else if (!strcmp(name, "remainders"))
        part_remainders(payload, sizeof payload, remainders, sizeof remainders);
    else if (!strcmp(name, "repair_word"))
        repair_word(name);
    else if (!strcmp(name, "crc_32"))
        sum = part_crc_32(area, sizeof area);
    else if (!strcmp(name, "scramble"))
        part_scramble(taps, frame + 9, 2072);
    else if (!strcmp(name, "build"))
        part_build(taps, area, sizeof area, frame, sizeof frame);
    else if (!strcmp(name, "open"))
        must(part_open(taps, frame, sizeof frame, opened, sizeof opened), name);
    else
        must(1, name);
}

int main(int argc, char **argv)
{
    int count = argc > 2 ? atoi(argv[2]) : 0;
    taps = taps_of(argc, argv);
    fill_area(area);
    memcpy(payload, area, sizeof area);
    part_write_parity(payload, sizeof payload);
    part_build(taps, area, sizeof area, frame, sizeof frame);
    prepare_word();
    for (int k = 0; k < count; k++)
        call(argv[1]);
    return show(frame, sizeof frame);
}
