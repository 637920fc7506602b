/* The refusals of repair: each by itself, and every choice of several, of which the first in its order comes. It judges
 * no check sum and no preamble: what 7, 9, 11 and 13 are given for is repaired like any other part. */
#include "damage.h"
#include "refusals.h"

#include <string.h>

static const uint32_t taps = TAQWELIM_TAPS_0_AND_3;

/* The part of a frame that is forged. */
static void set_part(unsigned wrong)
{
    static const uint8_t area[AREA] = {0xC0, 0x01, 0xAA};
    forge(TAQWELIM_KIND_DATA, area, wrong);
    set_bytes(&part, 0, bytes_of(&frame) + TAQWELIM_PREAMBLE_SIZE, PART);
}

static void repair_gives(uint8_t wanted, uint32_t with, size_t part_length, size_t scratch_length)
{
    taqwelim_repair_answer answer;
    keep();
    uint8_t number = both_repair(with, part_length, scratch_length, &answer);
    refused(number, wanted, "repair gives this number and changes nothing");
    expect(answer.repaired == 0, "repair's count after a refusal, and where nothing is wrong");
}

/* Lengths of part and scratch with which nothing is repaired. */
static const size_t lengths[][2] = {
    {0, 0}, {0, 2072}, {2071, 2072}, {2073, 2073}, {2081, 2081}, {2072, 2071}, {2072, 0},
};

/* Taps and lengths, beside everything that can be wrong with a part. */
static void arguments(void)
{
    static const uint32_t none[] = {0, 8, UINT32_C(1) << 25 | 1, UINT32_MAX};
    set_part(~0u);
    for (size_t i = 0; i < sizeof none / sizeof *none; i++)
        repair_gives(TAQWELIM_REFUSED_TAPS, none[i], lengths[i][0], lengths[i][1]);
    for (int is_right = 0; is_right < 2; is_right++) {
        for (size_t i = 0; i < sizeof lengths / sizeof *lengths; i++)
            repair_gives(TAQWELIM_REFUSED_LENGTH, taps, lengths[i][0], lengths[i][1]);
        repair_gives(TAQWELIM_REFUSED_TAPS, 8, 2072, 2072);
        set_part(0); /* and where nothing else is wrong */
    }
    static const size_t rooms[] = {2072, 2073, ROOM};
    for (size_t i = 0; i < sizeof rooms / sizeof *rooms; i++)
        repair_gives(TAQWELIM_NOT_REFUSED, taps, 2072, rooms[i]);
}

/* Wrong bytes that are repaired: of the scratch the first 2,072 bytes are written, and nothing else is. */
static void repaired(unsigned wrong, size_t scratch_length)
{
    taqwelim_repair_answer answer;
    uint8_t bytes[TAQWELIM_FRAME_SIZE], right[PART];
    set_part(wrong);
    memcpy(right, bytes_of(&part), PART);
    memcpy(bytes, bytes_of(&frame), sizeof bytes);
    damage_word(bytes, 0, 1); /* one at least */
    size_t count = 1 + damage_repairable(bytes, 1);
    set_bytes(&part, 0, bytes + TAQWELIM_PREAMBLE_SIZE, PART);
    keep();
    uint8_t number = both_repair(taps, 2072, scratch_length, &answer);
    expect(answer.repaired == count, "the count of the bytes that were wrong");
    written(&scratch, right, PART);
    refused(number, TAQWELIM_NOT_REFUSED, "a part is repaired, and past it nothing of the scratch is written");
}

void try_repairing_refusals(void)
{
    static const uint8_t order[] = {1, 2, 8, 12, 0}, not_judged[] = {7, 9, 11, 13, 0};
    arguments();
    for (unsigned others = 0; others < 16; others++) {
        unsigned beside = choice_of(not_judged, others);
        repaired(beside, 2072);
        repaired(beside, 2073);
        repaired(beside, ROOM);
        for (unsigned which = 0; which < 16; which++) {
            unsigned wrong = choice_of(order, which);
            int is_short = wrong & WRONG(TAQWELIM_REFUSED_LENGTH) ? 1 : 0;
            set_part(wrong | beside);
            repair_gives(first_of(order, wrong), wrong & WRONG(TAQWELIM_REFUSED_TAPS) ? 8 : taps,
                           is_short && others % 2 ? 2071 : 2072, is_short && others % 2 == 0 ? 2071 : 2072);
        }
    }
}
