/* Calls at random: lengths, states, fields and bytes that are right, nearly right or anything. The model says what each has to do. */
#include "damage.h"

#include <string.h>

static size_t some_size(size_t right)
{
    switch (below(12)) {
    case 0:
        return right - 1;
    case 1:
        return right + 1;
    case 2:
        return below(ROOM);
    case 3:
        return 0;
    default:
        return right;
    }
}

/* For calls that have several sizes, so that not nearly all of them are refused with 2. */
static size_t mostly(size_t right)
{
    return below(4) ? right : some_size(right);
}

static uint32_t some_taps(void)
{
    uint32_t taps = (uint32_t)chance() & 0x1FFFFFF;
    return below(8) ? (below(3) ? 9 : taps | 1) : below(2) ? taps & ~UINT32_C(1) : (uint32_t)chance();
}

static uint8_t some_flag(void)
{
    return (uint8_t)(below(20) ? below(2) : below(256));
}

/* A number of so many bits, or now and then any. */
static uint16_t some_number(int bits)
{
    return (uint16_t)(below(30) ? chance() & ((1u << bits) - 1) : chance());
}

static taqwelim_message some_message(void)
{
    static const int bits[16][3] = {{16, 0, 0}, {14, 1, 0}, {8, 8, 0}, {14, 1, 0}, {8, 8, 0}, {5, 5, 6}, {16, 0, 0}};
    taqwelim_message m = {0};
    m.opcode = (uint8_t)(below(30) ? below(16) : below(256));
    const int *of = bits[m.opcode % 16];
    m.first = some_number(of[0]);
    m.second = some_number(of[1]);
    m.third = some_number(of[2]);
    return m;
}

static taqwelim_fields some_fields(void)
{
    taqwelim_fields f;
    f.ack = some_flag();
    f.valid = some_flag();
    f.rxfn = (uint16_t)(f.valid || below(10) == 0 ? chance() : 0);
    f.stamp = below(20) ? chance() >> 24 : chance();
    f.seconds = (uint8_t)(below(20) ? below(64) : below(256));
    f.applies = (uint8_t)(below(20) ? below(8) : below(256));
    f.message = some_message();
    return f;
}

static taqwelim_header some_header(void)
{
    return (taqwelim_header){some_fields(), (uint16_t)chance(), (uint8_t)(below(20) ? below(4) : below(256))};
}

static void change_a_byte(lent *buffer, size_t within)
{
    set_byte(buffer, below(within), (uint8_t)chance());
}

/* ---- the sender, whose state goes on from call to call unless chance breaks it */

static taqwelim_sender sender;

static void break_sender(void)
{
    switch (below(30)) {
    case 0:
        sender.used = below(33000);
        break;
    case 1:
        sender.used = (size_t)chance();
        break;
    case 2:
        sender.start = below(2) ? below(33000) : (size_t)chance();
        break;
    case 3:
        set_byte(&queue, (sender.start + below(40)) % TAQWELIM_QUEUE_SIZE, (uint8_t)chance());
        break;
    case 4:
        sender.next = (uint16_t)chance();
        break;
    case 5:
    case 6: /* begun anew, anywhere in the ring or at its last byte */
        sender.used = 0;
        sender.start = below(3) ? below(TAQWELIM_QUEUE_SIZE) : TAQWELIM_QUEUE_SIZE - 1;
        break;
    default:
        break;
    }
}

static void some_put(void)
{
    size_t length = below(10) ? 1 + below(9000) : below(9300);
    if (below(3))
        length = 1 + below(60);
    if (below(20) == 0)
        length = below(2) ? 0 : 9001 + below(50);
    both_put(some_size(TAQWELIM_QUEUE_SIZE), &sender, length);
}

/* ---- frames to receive: of our own, or any area in any header; sealed, or damaged */

static taqwelim_receiver receiver;

static void some_area(uint8_t *area)
{
    size_t at = 0;
    memset(area, 0, AREA);
    while (AREA - at >= 3 && below(6)) {
        size_t room = AREA - at - 2, length = below(3) ? 1 + below(room) : room;
        unsigned mark = (at == 0 && below(2) ? 0 : RECORD_FIRST) | (at + 2 + length == AREA && below(2) ? 0 : RECORD_LAST) | (unsigned)length;
        if (below(60) == 0)
            mark = (unsigned)chance() & 0xFFFF;
        area[at] = (uint8_t)(mark >> 8);
        area[at + 1] = (uint8_t)mark;
        for (size_t i = 0; i < length; i++)
            area[at + 2 + i] = (uint8_t)chance();
        at += 2 + length;
    }
    if (below(40) == 0)
        area[below(AREA)] = (uint8_t)chance();
}

/* Wrong bytes in the words, few or too many; or one anywhere. */
static void some_damage(uint8_t *bytes)
{
    switch (below(4)) {
    case 0:
        bytes[below(TAQWELIM_FRAME_SIZE)] ^= (uint8_t)chance();
        break;
    case 1:
        damage_repairable(bytes, 0);
        break;
    default:
        damage_word(bytes, (int)below(WORDS), below(14));
    }
}

static void make_frame(uint32_t taps)
{
    uint8_t header[16], area[AREA], data[DATA], bytes[TAQWELIM_FRAME_SIZE];
    taqwelim_header h = {TAQWELIM_FIELDS_WITHOUT_MESSAGE, 0, 0};
    h.txfn = below(6) ? receiver.expected : (uint16_t)(receiver.expected + below(4));
    h.kind = (uint8_t)(below(4) ? TAQWELIM_KIND_DATA : below(4));
    model_header_bytes(h, header);
    if (below(12) == 0)
        header[below(14)] = (uint8_t)chance();
    if (below(20))
        model_seal_header(header);
    some_area(area);
    model_data(area, data);
    if (below(20) == 0)
        data[below(DATA)] ^= (uint8_t)chance();
    model_frame(taps, header, data, bytes);
    if (below(4) == 0)
        some_damage(bytes);
    set_bytes(&frame, 0, bytes, sizeof bytes);
}

static void break_receiver(void)
{
    if (below(10) == 0)
        receiver.held = below(2) ? 8000 + below(1001) : below(3) ? below(9001) : (size_t)chance();
    if (below(30) == 0)
        receiver.expects = some_flag();
    if (below(30) == 0)
        receiver.expected = (uint16_t)chance();
    if (below(40) == 0)
        receiver = library_fresh_receiver();
}

/* A header that no frame needs to have, and any area: 11 is for headers that cannot be coded. */
static void some_apply(taqwelim_apply_answer *answer)
{
    uint8_t bytes[AREA];
    taqwelim_header header = some_header();
    if (below(6))
        header.txfn = receiver.expected;
    some_area(bytes);
    set_bytes(&area_bytes, 0, bytes, sizeof bytes);
    both_apply(header, mostly(AREA), &receiver, mostly(TAQWELIM_HOLD_SIZE), mostly(TAQWELIM_LIST_MIN), answer);
    if (answer->refusal != TAQWELIM_REFUSED_LENGTH && answer->refusal != TAQWELIM_REFUSED_STATE)
        expect((answer->refusal == TAQWELIM_REFUSED_FIELD_RULE) == (both_code(header, 16) == TAQWELIM_REFUSED_FIELD),
               "apply refuses with 11 the headers that code_header refuses with 6");
}

/* The part of the frame at hand, whatever that holds; where it is repaired, the frame opens as before, and has nothing
 * wrong in it. */
static void some_repair(uint32_t taps)
{
    taqwelim_repair_answer repaired;
    taqwelim_open_answer before, after;
    set_bytes(&part, 0, bytes_of(&frame) + TAQWELIM_PREAMBLE_SIZE, PART);
    if (both_repair(taps, mostly(PART), mostly(PART), &repaired) || !repaired.repaired)
        return;
    both_open(taps, TAQWELIM_FRAME_SIZE, AREA, &before);
    set_bytes(&frame, TAQWELIM_PREAMBLE_SIZE, bytes_of(&scratch), PART);
    both_open(taps, TAQWELIM_FRAME_SIZE, AREA, &after);
    expect(before.refusal == after.refusal && same_header(before.header, after.header), "a part that is repaired opens as before");
    expect(after.repaired == 0 && before.repaired == (before.refusal ? 0 : repaired.repaired), "and open counts what repair counts");
}

static void some_open(taqwelim_apply_answer *answer)
{
    taqwelim_open_answer opened;
    uint32_t taps = some_taps();
    if (model_taps_allowed(taps) && below(20))
        make_frame(taps);
    if (below(3) == 0)
        some_repair(taps);
    if (both_open(taps, mostly(TAQWELIM_FRAME_SIZE), mostly(AREA), &opened) == 0)
        both_apply_opened(opened.header, mostly(AREA), &receiver, mostly(TAQWELIM_HOLD_SIZE),
                          mostly(TAQWELIM_LIST_MIN), answer);
}

static void some_entries(size_t listed)
{
    taqwelim_entry_answer entry;
    size_t position = 0;
    if (below(4) == 0 && listed > 0)
        change_a_byte(&list, listed);
    for (int i = 0; i < 4; i++) {
        both_entry(listed, position, &entry);
        position = below(5) ? entry.next : below(20) ? below(ROOM) : (size_t)chance();
    }
}

static void some_receive(void)
{
    taqwelim_apply_answer answer = {0};
    break_receiver();
    if (below(4))
        some_open(&answer);
    else
        some_apply(&answer);
    if (answer.refusal == TAQWELIM_REFUSED_STATE && below(2))
        receiver = library_fresh_receiver();
    some_entries(answer.listed);
}

static void code_and_read(void)
{
    taqwelim_header back;
    both_code(some_header(), some_size(TAQWELIM_HEADER_SIZE));
    if (below(3) == 0)
        change_a_byte(&header_bytes, 16);
    if (below(3) == 0) {
        uint8_t bytes[16];
        memcpy(bytes, bytes_of(&header_bytes), 16);
        model_seal_header(bytes);
        set_bytes(&header_bytes, 0, bytes, 16);
    }
    both_read(some_size(TAQWELIM_HEADER_SIZE), &back);
}

void try_chance(unsigned long rounds)
{
    sender = library_fresh_sender();
    receiver = library_fresh_receiver();
    for (unsigned long i = 0; i < rounds; i++) {
        if (i % 500 == 0)
            fill_all();
        taqwelim_waiting_answer waits;
        break_sender();
        both_waiting(some_size(TAQWELIM_QUEUE_SIZE), sender, &waits);
        some_put();
        both_next(some_taps(), some_fields(), &sender, some_size(TAQWELIM_QUEUE_SIZE), some_size(TAQWELIM_FRAME_SIZE));
        some_receive();
        code_and_read();
    }
}
