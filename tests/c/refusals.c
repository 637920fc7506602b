/* Every refusal number of every call, by itself and against the others of its call: the first in the call's order is
 * given, and no state and no byte changes. Here those of sending and of coding a header; of open in refusals_opening.c,
 * of repair in refusals_repairing.c, of apply in refusals_applying.c, of open and apply one after the other and of reading
 * in refusals_received.c. */
#include "refusals.h"

#include <string.h>

static const uint32_t taps = TAQWELIM_TAPS_0_AND_3;

/* ---- all that is lent, before a call and after it */

static lent *const all[] = {&queue, &packet, &out, &frame, &area_bytes, &hold, &list, &header_bytes, &part, &scratch};
enum { LENT = sizeof all / sizeof all[0] };
static lent before[LENT];

void keep(void)
{
    for (int i = 0; i < LENT; i++)
        before[i] = *all[i];
}

void refused(uint8_t number, uint8_t wanted, const char *what)
{
    expect(number == wanted, what);
    for (int i = 0; i < LENT; i++)
        expect(memcmp(all[i], &before[i], sizeof(lent)) == 0, what);
}

/* What was written is looked at and undone, so that `refused` can say that it was all. */
void written(lent *buffer, const uint8_t *bytes, size_t length)
{
    int i = 0;
    while (all[i] != buffer)
        i++;
    expect(memcmp(bytes_of(buffer), bytes, length) == 0, "what a call writes to the front of what is lent");
    set_bytes(buffer, 0, before[i].library + AROUND, length);
}

unsigned choice_of(const uint8_t *order, unsigned which)
{
    unsigned wrong = 0;
    for (; *order; order++, which >>= 1)
        wrong |= which & 1 ? WRONG(*order) : 0;
    return wrong;
}

uint8_t first_of(const uint8_t *order, unsigned wrong)
{
    while (*order && !(wrong & WRONG(*order)))
        order++;
    return *order;
}

taqwelim_fields good_fields(void)
{
    taqwelim_fields fields = {0x123456789A, 77, 1, 1, 30, 5, {TAQWELIM_OPCODE_SYNC_LOSSES, 16383, 1, 0}};
    return fields;
}

/* A mark in the ring, whose end may part it. */
static void set_mark(size_t at, unsigned mark)
{
    set_byte(&queue, at % 32768, (uint8_t)(mark >> 8));
    set_byte(&queue, (at + 1) % 32768, (uint8_t)mark);
}

/* ---- put: 2, 3, 4, 5; waiting: 2, 3 */

/* What waiting gives where put is refused: it judges queue and state alike, and knows no packet. */
static uint8_t without_packet(uint8_t wanted)
{
    return wanted == TAQWELIM_REFUSED_LENGTH || wanted == TAQWELIM_REFUSED_STATE ? wanted : TAQWELIM_NOT_REFUSED;
}

static void put_refused(uint8_t wanted, size_t queue_length, taqwelim_sender sender, size_t length)
{
    taqwelim_waiting_answer waits;
    taqwelim_sender after = sender;
    keep();
    refused(both_put(queue_length, &after, length), wanted, "put is refused");
    expect(same_sender(after, sender), "put's state after a refusal");
    refused(both_waiting(queue_length, sender, &waits), without_packet(wanted), "waiting, where put is refused");
    expect(!waits.refusal || (waits.packets == 0 && waits.bytes == 0), "waiting's numbers after a refusal");
}

/* Packets that wait from a start on: what 3, 4 and 5 are judged by. */
static void put_waiting(size_t start)
{
    taqwelim_sender full = {start, 32768, 3};
    for (size_t i = 0; i < 4; i++)
        set_mark(start + i * 8192, 0x1FFE); /* four packets of 8,190 */
    expect_waiting(full, 4, 32760);
    put_refused(TAQWELIM_REFUSED_PACKET, 32768, full, 9001);
    put_refused(TAQWELIM_REFUSED_FULL, 32768, full, 1);
    put_refused(TAQWELIM_REFUSED_STATE, 32768, (taqwelim_sender){start + 32768, 32768, 3}, 1); /* the same place, counted round */
    set_mark(start + 8192, 0x9FFE); /* begun, and not at the front */
    put_refused(TAQWELIM_REFUSED_STATE, 32768, full, 1);
    set_mark(start, 9001);
    put_refused(TAQWELIM_REFUSED_STATE, 32768, (taqwelim_sender){start, 9003, 0}, 1);
    set_mark(start, 0x8000 | 9000); /* of a begun packet */
    put_refused(TAQWELIM_REFUSED_STATE, 32768, (taqwelim_sender){start, 9002, 0}, 1);
    set_mark(start, 0x8000 | 8999);
    expect_waiting((taqwelim_sender){start, 9001, 0}, 1, 8999);
    expect_waiting((taqwelim_sender){start, 0, 0}, 0, 0);
    for (size_t i = 0; i < 10922; i++)
        set_mark(start + 3 * i, 1);
    expect_waiting((taqwelim_sender){start, 32766, 0}, 10922, 10922);
}

static void put(void)
{
    taqwelim_sender fresh = library_fresh_sender(), past = {0, 32769, 0}, most = {SIZE_MAX, SIZE_MAX, 9}, odd = {0, 1, 0};
    put_refused(TAQWELIM_REFUSED_LENGTH, 0, most, 0);
    put_refused(TAQWELIM_REFUSED_LENGTH, 32767, fresh, 0);
    put_refused(TAQWELIM_REFUSED_LENGTH, 32769, fresh, 1);
    put_refused(TAQWELIM_REFUSED_STATE, 32768, past, 0);
    put_refused(TAQWELIM_REFUSED_STATE, 32768, most, 9001);
    put_refused(TAQWELIM_REFUSED_STATE, 32768, odd, 1);
    put_refused(TAQWELIM_REFUSED_STATE, 32768, (taqwelim_sender){32768, 0, 0}, 1);
    put_refused(TAQWELIM_REFUSED_STATE, 32768, (taqwelim_sender){SIZE_MAX, 0, 0}, 0);
    put_refused(TAQWELIM_REFUSED_PACKET, 32768, fresh, 0);
    put_refused(TAQWELIM_REFUSED_PACKET, 32768, (taqwelim_sender){32767, 0, 0}, 9001);
    put_waiting(0);
    put_waiting(20001);
    put_waiting(32767);
}

/* ---- next_frame: 1, 2, 3, 6 */

static void next_refused(uint8_t wanted, uint32_t with, taqwelim_fields fields, taqwelim_sender sender, size_t queue_length, size_t out_length)
{
    taqwelim_sender after = sender;
    keep();
    refused(both_next(with, fields, &after, queue_length, out_length), wanted, "next_frame is refused");
    expect(same_sender(after, sender), "next_frame's state after a refusal");
}

static void next(void)
{
    taqwelim_fields good = good_fields(), bad = good;
    taqwelim_sender empty = {32767, 0, 4660}, most = {SIZE_MAX, SIZE_MAX, 4660};
    bad.seconds = 64;
    next_refused(TAQWELIM_REFUSED_TAPS, 8, bad, most, 0, 0);
    next_refused(TAQWELIM_REFUSED_TAPS, UINT32_C(1) << 25 | 1, good, empty, 32768, 2081);
    next_refused(TAQWELIM_REFUSED_TAPS, UINT32_MAX, good, empty, 32768, 2081);
    next_refused(TAQWELIM_REFUSED_LENGTH, taps, bad, most, 32768, 2080);
    next_refused(TAQWELIM_REFUSED_LENGTH, taps, bad, empty, 32769, 2081);
    next_refused(TAQWELIM_REFUSED_LENGTH, taps, good, empty, 0, 0);
    next_refused(TAQWELIM_REFUSED_STATE, taps, bad, (taqwelim_sender){0, 32769, 4660}, 32768, 2081);
    next_refused(TAQWELIM_REFUSED_STATE, taps, bad, (taqwelim_sender){32768, 0, 4660}, 32768, 2081);
    next_refused(TAQWELIM_REFUSED_STATE, taps, good, (taqwelim_sender){SIZE_MAX, 0, 4660}, 32768, 2081);
    next_refused(TAQWELIM_REFUSED_FIELD, taps, bad, empty, 32768, 2081);
}

/* Every field that C can get wrong, in a frame and in a bare header: 6, and where it is to be applied, of any kind, 11.
 * Nothing is undefined. */
static void field_refused(taqwelim_fields fields)
{
    taqwelim_header header = {fields, 9, TAQWELIM_KIND_DATA};
    next_refused(TAQWELIM_REFUSED_FIELD, taps, fields, library_fresh_sender(), 32768, 2081);
    keep();
    refused(both_code(header, 16), TAQWELIM_REFUSED_FIELD, "code_header is refused");
    refused(both_code(header, 15), TAQWELIM_REFUSED_LENGTH, "code_header is refused for its length first");
    for (header.kind = 0; header.kind < 4; header.kind++)
        header_refused(header);
}

static void fields(void)
{
    static const taqwelim_message messages[] = {
        {16, 0, 0, 0}, {255, 0, 0, 0}, {0, 1, 1, 0},      {0, 1, 0, 1},    {1, 16384, 0, 0}, {1, 5, 2, 0},    {1, 5, 1, 1},     {2, 256, 0, 0},
        {2, 0, 256, 0}, {2, 0, 0, 1},   {3, 16384, 1, 0}, {3, 1, 3, 0},    {3, 1, 1, 9},     {4, 256, 0, 0},  {4, 0, 65535, 0}, {4, 0, 0, 1},
        {5, 32, 0, 0},  {5, 0, 32, 0},  {5, 0, 0, 64},    {5, 65535, 0, 0}, {6, 1, 1, 0},    {6, 1, 0, 1},    {7, 1, 0, 0},     {14, 0, 1, 0},
        {8, 0, 0, 1},   {15, 1, 0, 0},  {15, 0, 1, 0},    {15, 0, 0, 65535},
    };
    taqwelim_fields good = good_fields(), f;
    for (unsigned bad = 2; bad < 256; bad++) {
        f = good, f.ack = (uint8_t)bad, field_refused(f);
        f = good, f.valid = (uint8_t)bad, field_refused(f);
    }
    f = good, f.valid = 0, field_refused(f);
    f = good, f.valid = 0, f.rxfn = 1, field_refused(f);
    f = good, f.stamp = UINT64_C(1) << 40, field_refused(f);
    f = good, f.stamp = UINT64_MAX, field_refused(f);
    f = good, f.seconds = 64, field_refused(f);
    f = good, f.seconds = 255, field_refused(f);
    f = good, f.applies = 8, field_refused(f);
    for (size_t i = 0; i < sizeof messages / sizeof messages[0]; i++)
        f = good, f.message = messages[i], field_refused(f);
    for (unsigned kind = 4; kind < 256; kind++) {
        taqwelim_header header = {good, 9, (uint8_t)kind};
        keep();
        refused(both_code(header, 16), TAQWELIM_REFUSED_FIELD, "a kind above 3");
        header_refused(header);
    }
}

void try_refusals(void)
{
    fill_all();
    put();
    next();
    fields();
    try_opening_refusals();
    try_repairing_refusals();
    try_applying_refusals();
    try_received_refusals();
}
