/* The refusals of apply: each by itself, and every choice of several, of which the first in its order comes. Every
 * header that no opening gives is refused with 11, whatever its kind and its area. What is not refused is applied. */
#include "refusals.h"

static const struct lengths {
    size_t area, hold, list;
} right = {1908, 9000, 10907};

const uint8_t *area_of(unsigned mark)
{
    static uint8_t area[AREA];
    model_put_mark(area, mark);
    return area;
}

static void set_area(unsigned mark)
{
    set_bytes(&area_bytes, 0, area_of(mark), AREA);
}

void apply_refused(uint8_t wanted, taqwelim_header header, size_t area_length, taqwelim_receiver receiver,
                   size_t hold_length, size_t list_length)
{
    taqwelim_receiver after = receiver;
    taqwelim_apply_answer answer;
    keep();
    refused(both_apply(header, area_length, &after, hold_length, list_length, &answer), wanted, "apply is refused");
    expect(after.held == receiver.held && after.expected == receiver.expected && after.expects == receiver.expects,
           "apply's state after a refusal");
    expect(answer.packets == 0 && answer.listed == 0 && answer.missed == 0, "apply's counts after a refusal");
}

/* ---- every choice of 2, 3, 11, 14 and 15; of a frame that is not DATA, 14 and 15 do not count */

/* An area is against the rules by its last byte, and too long by its first record. */
static void apply_wrong(uint8_t kind, unsigned wrong, struct lengths lengths)
{
    static const uint8_t of_data[] = {2, 3, 11, 14, 15, 0}, of_others[] = {2, 3, 11, 0};
    uint8_t wanted = first_of(kind == TAQWELIM_KIND_DATA ? of_data : of_others, wrong);
    taqwelim_header header = {good_fields(), 7, kind};
    taqwelim_receiver receiver = {0, 7, 1};
    taqwelim_apply_answer answer;
    set_area(0xC001);
    if (wrong & WRONG(TAQWELIM_REFUSED_TOO_LONG))
        set_area(0x4002), receiver.held = 8999;
    if (wrong & WRONG(TAQWELIM_REFUSED_PACKING))
        set_byte(&area_bytes, AREA - 1, 1);
    if (wrong & WRONG(TAQWELIM_REFUSED_FIELD_RULE))
        header.fields.valid = 0; /* and RXFN is not */
    if (wrong & WRONG(TAQWELIM_REFUSED_STATE))
        receiver.held = 9000;
    if (wanted)
        apply_refused(wanted, header, lengths.area, receiver, lengths.hold, lengths.list);
    else
        expect(both_apply(header, lengths.area, &receiver, lengths.hold, lengths.list, &answer) == 0, "it is applied");
}

static void choices(void)
{
    static const uint8_t behind_2[] = {3, 11, 14, 15, 0};
    static const struct lengths wrong[] = {{1907, 9000, 10907}, {1909, 9000, 10907}, {1908, 8999, 10907},
                                           {1908, 9001, 10907}, {1908, 9000, 10906}, {0, 0, 0}};
    for (uint8_t kind = 0; kind < 4; kind++)
        for (unsigned which = 0; which < 16; which++) {
            unsigned others = choice_of(behind_2, which);
            apply_wrong(kind, others, right);
            for (size_t i = 0; i < sizeof wrong / sizeof wrong[0]; i++)
                apply_wrong(kind, others | WRONG(TAQWELIM_REFUSED_LENGTH), wrong[i]);
        }
}

/* ---- states and areas */

static void apply_to(uint8_t wanted, taqwelim_header header, taqwelim_receiver receiver)
{
    apply_refused(wanted, header, right.area, receiver, right.hold, right.list);
}

void header_refused(taqwelim_header header)
{
    set_area(0xC001);
    apply_to(TAQWELIM_REFUSED_FIELD_RULE, header, library_fresh_receiver());
    set_area(0x0000); /* no record, which is against the rules */
    apply_to(TAQWELIM_REFUSED_FIELD_RULE, header, library_fresh_receiver());
    apply_to(TAQWELIM_REFUSED_STATE, header, (taqwelim_receiver){9000, 7, 1});
}

static void states(void)
{
    static const taqwelim_receiver no_states[] = {{9000, 7, 1}, {SIZE_MAX, 7, 1}, {SIZE_MAX, 0, 255}, {0, 0, 255},
                                                  {0, 7, 2},    {0, 7, 0},        {8999, 1, 0}};
    set_area(0xC001);
    for (uint8_t kind = 0; kind < 4; kind++)
        for (size_t i = 0; i < sizeof no_states / sizeof no_states[0]; i++)
            apply_to(TAQWELIM_REFUSED_STATE, (taqwelim_header){good_fields(), 7, kind}, no_states[i]);
}

static void areas(void)
{
    /* no mark: none, a bit of 13 to 11, no length, past the area, not last and not at its end */
    static const unsigned marks[] = {0x0000, 0xC801, 0xD001, 0xE001, 0x8000, 0x4000,
                                     0xC000, 0xC773, 0xC7FF, 0x8001, 0x8771};
    taqwelim_header header = {good_fields(), 7, TAQWELIM_KIND_DATA};
    taqwelim_receiver holds = {8999, 7, 1};
    for (size_t i = 0; i < sizeof marks / sizeof marks[0]; i++) {
        set_area(marks[i]);
        apply_to(TAQWELIM_REFUSED_PACKING, header, library_fresh_receiver());
        apply_to(TAQWELIM_REFUSED_PACKING, header, holds);
    }
    apply_to(TAQWELIM_REFUSED_PACKING, header, (taqwelim_receiver){0, 5, 1}); /* two are missed, and not told */
    set_area(0x4002);
    apply_to(TAQWELIM_REFUSED_TOO_LONG, header, holds);
    apply_to(TAQWELIM_REFUSED_TOO_LONG, header, (taqwelim_receiver){8999, 0, 0}); /* none expected, and yet held */
    set_area(0x0772);
    apply_to(TAQWELIM_REFUSED_TOO_LONG, header, holds);
}

/* ---- what is not refused writes the front of list or hold, and nothing else */

static void applied(unsigned mark, lent *buffer, const uint8_t *bytes, size_t length, size_t list_length)
{
    taqwelim_header header = {good_fields(), 7, TAQWELIM_KIND_DATA};
    taqwelim_receiver receiver = {0, 5, 1};
    taqwelim_apply_answer answer;
    fill_all(); /* what an earlier call cleared would not be seen to be cleared */
    set_area(mark);
    keep();
    uint8_t number = both_apply(header, right.area, &receiver, right.hold, list_length, &answer);
    expect(answer.missed == 2 && receiver.expects == 1 && receiver.expected == 8, "what was missed and is expected");
    written(buffer, bytes, length);
    refused(number, TAQWELIM_NOT_REFUSED, "it is applied, and nothing else is written");
}

void try_applying_refusals(void)
{
    static const uint8_t packet_of_zero[3] = {0, 1, 0}, zeros[1906];
    choices();
    states();
    areas();
    applied(0xC001, &list, packet_of_zero, sizeof packet_of_zero, right.list);
    applied(0xC001, &list, packet_of_zero, sizeof packet_of_zero, 11000);
    applied(0x8772, &hold, zeros, sizeof zeros, right.list);
}
