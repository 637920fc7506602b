/* The model's sending and receiving (paper 01, "Packing, the bench's own"; paper 02, M-105 and M-106). */
#include "model.h"

#include <string.h>

static unsigned mark_at(const uint8_t *bytes)
{
    return (unsigned)bytes[0] << 8 | bytes[1];
}

void model_put_mark(uint8_t *bytes, unsigned mark)
{
    bytes[0] = (uint8_t)(mark >> 8);
    bytes[1] = (uint8_t)mark;
}

/* ---- what waits, laid out from byte 0 on: per packet a mark, then its unsent bytes */

static int is_whole(const uint8_t *laid, size_t used)
{
    size_t at = 0;
    while (at < used) {
        if (used - at < 2)
            return 0;
        unsigned mark = mark_at(laid + at), begun = mark >> 15, length = mark & 0x7FFF;
        if ((begun && at > 0) || length < 1 || length > (begun ? 8999u : 9000u) || length > used - at - 2)
            return 0;
        at += 2 + length;
    }
    return 1;
}

/* How many packets these are; they are whole. */
size_t model_count(const uint8_t *laid, size_t used)
{
    size_t packets = 0;
    for (size_t at = 0; at < used; at += 2 + (mark_at(laid + at) & 0x7FFF))
        packets++;
    return packets;
}

/* Fills the area, and moves what remains to byte 0; how many bytes that is. */
size_t model_fill(uint8_t *area, uint8_t *laid, size_t used)
{
    static uint8_t rest[TAQWELIM_QUEUE_SIZE];
    size_t to = 0, from = 0, left = 0;
    memset(area, 0, AREA);
    while (from < used && AREA - to >= 3) {
        unsigned mark = mark_at(laid + from), begun = mark >> 15, length = mark & 0x7FFF;
        unsigned taken = length < AREA - to - 2 ? length : (unsigned)(AREA - to - 2);
        model_put_mark(area + to, (begun ? 0 : RECORD_FIRST) | (taken == length ? RECORD_LAST : 0) | taken);
        memcpy(area + to + 2, laid + from + 2, taken);
        to += 2 + taken;
        from += 2 + taken;
        if (taken < length) {
            model_put_mark(rest, 0x8000 | (length - taken));
            memcpy(rest + 2, laid + from, length - taken);
            left = 2 + length - taken;
            from += length - taken;
        }
    }
    memcpy(rest + left, laid + from, used - from);
    left += used - from;
    memcpy(laid, rest, left);
    return left;
}

/* ---- the queue, a ring: waiting byte i stands at start + i, modulo its size */

void model_write_round(uint8_t *queue, size_t start, const uint8_t *bytes, size_t length)
{
    for (size_t i = 0; i < length; i++)
        queue[(start + i) % TAQWELIM_QUEUE_SIZE] = bytes[i];
}

/* Lays out what waits in the ring; whether it is whole. */
static int read_waiting(const uint8_t *queue, taqwelim_sender sender, uint8_t *laid)
{
    if (sender.start >= TAQWELIM_QUEUE_SIZE || sender.used > TAQWELIM_QUEUE_SIZE)
        return 0;
    for (size_t i = 0; i < sender.used; i++)
        laid[i] = queue[(sender.start + i) % TAQWELIM_QUEUE_SIZE];
    return is_whole(laid, sender.used);
}

taqwelim_put_answer model_put(uint8_t *queue, size_t queue_length, taqwelim_sender sender, const uint8_t *packet, size_t packet_length)
{
    static uint8_t laid[TAQWELIM_QUEUE_SIZE];
    taqwelim_put_answer answer = {sender, 0};
    uint8_t mark[2];
    if (queue_length != TAQWELIM_QUEUE_SIZE)
        answer.refusal = 2;
    else if (!read_waiting(queue, sender, laid))
        answer.refusal = 3;
    else if (packet_length < 1 || packet_length > TAQWELIM_PACKET_MAX)
        answer.refusal = 4;
    else if (sender.used + 2 + packet_length > TAQWELIM_QUEUE_SIZE)
        answer.refusal = 5;
    if (answer.refusal)
        return answer;
    model_put_mark(mark, (unsigned)packet_length);
    model_write_round(queue, sender.start + sender.used, mark, 2);
    model_write_round(queue, sender.start + sender.used + 2, packet, packet_length);
    answer.sender.used += 2 + packet_length;
    return answer;
}

taqwelim_waiting_answer model_waiting(const uint8_t *queue, size_t queue_length, taqwelim_sender sender)
{
    static uint8_t laid[TAQWELIM_QUEUE_SIZE];
    taqwelim_waiting_answer answer = {0, 0, 0};
    if (queue_length != TAQWELIM_QUEUE_SIZE)
        answer.refusal = 2;
    else if (!read_waiting(queue, sender, laid))
        answer.refusal = 3;
    if (answer.refusal)
        return answer;
    answer.packets = model_count(laid, sender.used);
    answer.bytes = sender.used - 2 * answer.packets;
    return answer;
}

taqwelim_next_answer model_next_frame(uint32_t taps, taqwelim_fields fields, taqwelim_sender sender, uint8_t *queue, size_t queue_length, uint8_t *out,
                                      size_t out_length)
{
    static uint8_t laid[TAQWELIM_QUEUE_SIZE];
    taqwelim_next_answer answer = {sender, 0, 0};
    taqwelim_header header = {fields, sender.next, TAQWELIM_KIND_IDLE};
    uint8_t area[AREA], data[DATA], bytes[16];
    if (!model_taps_allowed(taps))
        answer.refusal = 1;
    else if (queue_length != TAQWELIM_QUEUE_SIZE || out_length < TAQWELIM_FRAME_SIZE)
        answer.refusal = 2;
    else if (!read_waiting(queue, sender, laid))
        answer.refusal = 3;
    else if (!model_fields_fit(fields))
        answer.refusal = 6;
    if (answer.refusal)
        return answer;
    if (sender.used > 0)
        header.kind = TAQWELIM_KIND_DATA;
    answer.sender.used = model_fill(area, laid, sender.used);
    answer.sender.start = (sender.start + sender.used - answer.sender.used) % TAQWELIM_QUEUE_SIZE;
    /* what remains is written where it stood: only the mark of a packet that was cut is new */
    model_write_round(queue, answer.sender.start, laid, answer.sender.used);
    answer.sender.next = (uint16_t)(sender.next + 1);
    answer.kind = header.kind;
    model_header_bytes(header, bytes);
    model_data(area, data);
    model_frame(taps, bytes, data, out);
    return answer;
}

/* ---- the area of a frame that was opened */

static int are_zeros(const uint8_t *bytes, size_t length)
{
    for (size_t i = 0; i < length; i++)
        if (bytes[i])
            return 0;
    return 1;
}

/* The mark of the record at a place; 0 where the records end there. */
static unsigned record_at(const uint8_t *area, size_t at)
{
    return AREA - at < 3 ? 0 : mark_at(area + at);
}

static int is_allowed(const uint8_t *area)
{
    size_t at = 0;
    for (unsigned mark; (mark = record_at(area, at)) != 0;) {
        unsigned length = mark & 0x7FF;
        if (mark & 0x3800 || length < 1 || length > AREA - at - 2 || (at > 0 && !(mark & RECORD_FIRST)))
            return 0;
        at += 2 + length;
        if (!(mark & RECORD_LAST) && at != AREA)
            return 0;
    }
    return at > 0 && are_zeros(area + at, AREA - at);
}

/* 14 and 15; held is what is held once missing frames were counted. */
static uint8_t area_refusal(const uint8_t *area, size_t held)
{
    if (!is_allowed(area))
        return 14;
    unsigned mark = mark_at(area), length = mark & 0x7FF;
    return !(mark & RECORD_FIRST) && held > 0 && held + length > (mark & RECORD_LAST ? 9000u : 8999u) ? 15 : 0;
}

static void join(const uint8_t *area, taqwelim_apply_answer *answer, uint8_t *hold, uint8_t *list)
{
    size_t at = 0, held = answer->receiver.held;
    for (unsigned mark; (mark = record_at(area, at)) != 0;) {
        unsigned length = mark & 0x7FF;
        const uint8_t *bytes = area + at + 2;
        at += 2 + length;
        if (mark & RECORD_FIRST)
            held = 0;
        else if (held == 0)
            continue;
        if (mark & RECORD_LAST) {
            uint8_t *entry = list + answer->listed;
            model_put_mark(entry, (unsigned)held + length);
            memcpy(entry + 2, hold, held);
            memcpy(entry + 2 + held, bytes, length);
            answer->listed += 2 + held + length;
            answer->packets++;
            held = 0;
        } else {
            memcpy(hold + held, bytes, length);
            held += length;
        }
    }
    answer->receiver.held = held;
}

taqwelim_apply_answer model_apply(taqwelim_header header, const uint8_t *area, size_t area_length,
                                  taqwelim_receiver receiver, uint8_t *hold, size_t hold_length, uint8_t *list,
                                  size_t list_length)
{
    taqwelim_apply_answer refused = {0}, answer = {0};
    refused.receiver = receiver;
    if (area_length != AREA || hold_length != TAQWELIM_HOLD_SIZE || list_length < TAQWELIM_LIST_MIN)
        refused.refusal = 2;
    else if (receiver.held > 8999 || receiver.expects > 1 || (receiver.expects == 0 && receiver.expected != 0))
        refused.refusal = 3;
    else if (!model_header_fits(header))
        refused.refusal = 11;
    if (refused.refusal)
        return refused;
    answer.missed = receiver.expects ? (uint16_t)(header.txfn - receiver.expected) : 0;
    answer.receiver.held = answer.missed ? 0 : receiver.held;
    answer.receiver.expects = 1;
    answer.receiver.expected = (uint16_t)(header.txfn + 1);
    if (header.kind == TAQWELIM_KIND_DATA) {
        refused.refusal = area_refusal(area, answer.receiver.held);
        if (refused.refusal)
            return refused;
        join(area, &answer, hold, list);
    }
    return answer;
}

/* ---- the list, and bare headers */

taqwelim_entry_answer model_entry(const uint8_t *list, size_t list_length, size_t position)
{
    taqwelim_entry_answer answer = {0};
    if (position == list_length)
        return answer;
    size_t length = position < list_length && list_length - position >= 2 ? mark_at(list + position) : 0;
    if (length < 1 || length > 9000 || length > list_length - position - 2) {
        answer.refusal = 16;
        return answer;
    }
    answer.start = position + 2;
    answer.length = length;
    answer.next = position + 2 + length;
    answer.found = 1;
    return answer;
}

taqwelim_code_answer model_code_header(taqwelim_header header, uint8_t *out, size_t out_length)
{
    taqwelim_code_answer answer = {0};
    if (out_length != TAQWELIM_HEADER_SIZE)
        answer.refusal = 2;
    else if (!model_header_fits(header))
        answer.refusal = 6;
    else
        model_header_bytes(header, out);
    return answer;
}

taqwelim_read_answer model_read_header(const uint8_t *bytes, size_t length)
{
    taqwelim_read_answer answer = {0};
    answer.refusal = length == TAQWELIM_HEADER_SIZE ? model_header_refusal(bytes) : 2;
    if (!answer.refusal)
        answer.header = model_header_of(bytes);
    return answer;
}
