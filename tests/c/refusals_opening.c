/* The refusals of open: each by itself, and every choice of several, of which the first in its order comes. What is
 * not refused is opened, also with wrong bytes that are repaired: 9, 11 and 13 are then judged of the repaired ones. */
#include "damage.h"
#include "refusals.h"

#include <string.h>

static const uint32_t taps = TAQWELIM_TAPS_0_AND_3;
enum { HOPELESS = 8 }; /* the payload's last word */

void forge(uint8_t kind, const uint8_t *area, unsigned wrong)
{
    uint8_t header[16], data[DATA], bytes[TAQWELIM_FRAME_SIZE];
    model_header_bytes((taqwelim_header){good_fields(), 7, kind}, header);
    if (wrong & WRONG(TAQWELIM_REFUSED_FIELD_RULE))
        header[4] &= 0xFB; /* ACK-valid 0, and RXFN is not */
    model_seal_header(header);
    if (wrong & WRONG(TAQWELIM_REFUSED_HEADER_CRC))
        header[15] ^= 1;
    model_data(area, data);
    if (wrong & WRONG(TAQWELIM_REFUSED_PAYLOAD_CRC))
        data[DATA - 1] ^= 1;
    model_frame(taps, header, data, bytes);
    if (wrong & WRONG(TAQWELIM_REFUSED_PREAMBLE))
        bytes[8] ^= 1;
    if (wrong & WRONG(TAQWELIM_REFUSED_HEADER_CODE))
        damage_hopeless(bytes, 0);
    if (wrong & WRONG(TAQWELIM_REFUSED_PAYLOAD_CODE))
        damage_hopeless(bytes, HOPELESS);
    set_bytes(&frame, 0, bytes, sizeof bytes);
}

size_t forge_damaged(uint8_t kind, const uint8_t *area, unsigned wrong)
{
    uint8_t bytes[TAQWELIM_FRAME_SIZE];
    unsigned but = (wrong & WRONG(TAQWELIM_REFUSED_HEADER_CODE) ? 1u : 0)
                   | (wrong & WRONG(TAQWELIM_REFUSED_PAYLOAD_CODE) ? 1u << HOPELESS : 0);
    forge(kind, area, wrong);
    memcpy(bytes, bytes_of(&frame), sizeof bytes);
    size_t count = damage_repairable(bytes, but);
    set_bytes(&frame, 0, bytes, sizeof bytes);
    return count;
}

static void open_refused(uint8_t wanted, uint32_t with, size_t frame_length, size_t area_length)
{
    taqwelim_open_answer answer;
    taqwelim_header zeros = {0};
    keep();
    refused(both_open(with, frame_length, area_length, &answer), wanted, "open is refused");
    expect(same_header(answer.header, zeros) && answer.repaired == 0, "open's header and count after a refusal");
}

/* An area by chance, as a DATA frame may not have it: open does not look into it. */
static const uint8_t *some_area(void)
{
    static uint8_t area[AREA];
    for (size_t i = 0; i < AREA; i++)
        area[i] = (uint8_t)chance();
    return area;
}

/* A monitor lends a frame and room for its area, and no hold: it gets header and area, and nothing else is written. */
static void opened(uint8_t kind, const uint8_t *area, size_t area_length, int is_damaged)
{
    taqwelim_open_answer answer;
    size_t count = 0;
    fill_all(); /* what an earlier call cleared would not be seen to be cleared */
    if (is_damaged)
        count = forge_damaged(kind, area, 0);
    else
        forge(kind, area, 0);
    keep();
    uint8_t number = both_open(taps, 2081, area_length, &answer);
    expect(same_header(answer.header, (taqwelim_header){good_fields(), 7, kind}), "the header of the frame");
    expect(answer.repaired == count, "the count of the bytes that were wrong");
    written(&area_bytes, area, AREA);
    refused(number, TAQWELIM_NOT_REFUSED, "a frame is opened, and past its area nothing is written");
}

/* Taps and lengths, beside everything that can be wrong with a frame. */
static void arguments(void)
{
    forge(TAQWELIM_KIND_DATA, some_area(), ~0u);
    open_refused(TAQWELIM_REFUSED_TAPS, 0, 0, 0);
    open_refused(TAQWELIM_REFUSED_TAPS, 8, 2081, 1908);
    open_refused(TAQWELIM_REFUSED_TAPS, UINT32_C(1) << 25 | 1, 2081, 1908);
    open_refused(TAQWELIM_REFUSED_TAPS, UINT32_MAX, 2080, 1907);
    open_refused(TAQWELIM_REFUSED_LENGTH, taps, 2080, 1908);
    open_refused(TAQWELIM_REFUSED_LENGTH, taps, 2082, 1908);
    open_refused(TAQWELIM_REFUSED_LENGTH, taps, 2081, 1907);
    open_refused(TAQWELIM_REFUSED_LENGTH, taps, 2081, 0);
    open_refused(TAQWELIM_REFUSED_LENGTH, taps, 0, 0);
    open_refused(TAQWELIM_REFUSED_PREAMBLE, taps, 2081, 1908);
    open_refused(TAQWELIM_REFUSED_PREAMBLE, taps, 2081, 2000);
    forge(TAQWELIM_KIND_DATA, some_area(), 0);
    open_refused(TAQWELIM_REFUSED_LENGTH, taps, 2080, 1908);
    open_refused(TAQWELIM_REFUSED_LENGTH, taps, 2082, 1908);
    open_refused(TAQWELIM_REFUSED_LENGTH, taps, 2081, 1907);
}

void try_opening_refusals(void)
{
    static const uint8_t order[] = {1, 2, 7, 8, 9, 11, 12, 13, 0};
    arguments();
    for (uint8_t kind = 0; kind < 4; kind++) {
        for (int is_damaged = 0; is_damaged < 2; is_damaged++) {
            opened(kind, some_area(), 1908, is_damaged);
            opened(kind, some_area(), 2000, is_damaged);
            opened(kind, area_of(0x0000), 1908, is_damaged);
        }
        for (unsigned which = 1; which < 256; which++) {
            unsigned wrong = choice_of(order, which);
            int is_short = wrong & WRONG(TAQWELIM_REFUSED_LENGTH) ? 1 : 0;
            uint32_t with = wrong & WRONG(TAQWELIM_REFUSED_TAPS) ? 8 : taps;
            size_t frame_length = is_short && kind % 2 ? 2080 : 2081;
            size_t area_length = is_short && kind % 2 == 0 ? 1907 : 1908;
            forge(kind, some_area(), wrong);
            open_refused(first_of(order, wrong), with, frame_length, area_length);
            forge_damaged(kind, some_area(), wrong);
            open_refused(first_of(order, wrong), with, frame_length, area_length);
        }
    }
}
