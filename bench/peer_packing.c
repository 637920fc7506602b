/* The peer's queue, packing and applying, by the same rules as the library's. */
#include "peer.h"

#include <string.h>

static size_t mark_at(const uint8_t *bytes) { return (size_t)bytes[0] << 8 | bytes[1]; }

static void write_mark(uint8_t *bytes, size_t mark)
{
    bytes[0] = (uint8_t)(mark >> 8);
    bytes[1] = (uint8_t)mark;
}

/* ---- the queue, a ring: byte i of what waits stands at start + i, round */

static size_t mark_round(const uint8_t *queue, size_t at) { return (size_t)queue[at % QUEUE] << 8 | queue[(at + 1) % QUEUE]; }

static void copy_in(uint8_t *queue, size_t at, const uint8_t *bytes, size_t count)
{
    size_t from = at % QUEUE, before_end = count < QUEUE - from ? count : QUEUE - from;
    memcpy(queue + from, bytes, before_end);
    memcpy(queue, bytes + before_end, count - before_end);
}

static void copy_out(const uint8_t *queue, size_t at, uint8_t *bytes, size_t count)
{
    size_t from = at % QUEUE, before_end = count < QUEUE - from ? count : QUEUE - from;
    memcpy(bytes, queue + from, before_end);
    memcpy(bytes + before_end, queue, count - before_end);
}

static void copy_mark_in(uint8_t *queue, size_t at, size_t mark)
{
    uint8_t bytes[2];
    write_mark(bytes, mark);
    copy_in(queue, at, bytes, 2);
}

static int is_whole(const uint8_t *queue, size_t start, size_t used)
{
    for (size_t at = 0; at < used;) {
        if (used - at < 2)
            return 0;
        size_t length = mark_round(queue, start + at), most = 9000;
        if (at == 0 && length >= 32768) {
            length -= 32768;
            most = 8999;
        }
        if (length < 1 || length > most || used - at - 2 < length)
            return 0;
        at += 2 + length;
    }
    return 1;
}

static int queue_refusal(const uint8_t *queue, size_t queue_length, const struct peer_sender *sender)
{
    if (queue_length != QUEUE)
        return 2;
    return sender->start < QUEUE && sender->used <= QUEUE && is_whole(queue, sender->start, sender->used) ? 0 : 3;
}

int peer_put(uint8_t *queue, size_t queue_length, struct peer_sender *sender, const uint8_t *packet, size_t length)
{
    int refusal = queue_refusal(queue, queue_length, sender);
    if (refusal)
        return refusal;
    if (length < 1 || length > 9000)
        return 4;
    if (QUEUE - sender->used < 2 + length)
        return 5;
    copy_mark_in(queue, sender->start + sender->used, length);
    copy_in(queue, sender->start + sender->used + 2, packet, length);
    sender->used += 2 + length;
    return 0;
}

/* Fills the area with records, and moves the start on; a cut packet's new mark goes over the two bytes before its rest. */
static void fill(uint8_t *queue, struct peer_sender *sender, uint8_t area[AREA])
{
    size_t at = 0, from = sender->start, end = sender->start + sender->used;
    while (from < end && AREA - at >= 3) {
        size_t mark = mark_round(queue, from), length = mark & 0x7FFF, room = AREA - at - 2, first = mark < 32768 ? 32768 : 0;
        if (length > room) {
            write_mark(area + at, first | room);
            copy_out(queue, from + 2, area + at + 2, room);
            from += room;
            copy_mark_in(queue, from, 32768 | (length - room));
            break;
        }
        write_mark(area + at, first | 0x4000 | length);
        copy_out(queue, from + 2, area + at + 2, length);
        at += 2 + length;
        from += 2 + length;
    }
    sender->start = from % QUEUE;
    sender->used = end - from;
}

int peer_next_frame(uint32_t taps, uint8_t *queue, size_t queue_length, struct peer_sender *sender, uint8_t *frame, size_t frame_length)
{
    if (taps >> 25 || !(taps & 1))
        return 1;
    if (frame_length < FRAME)
        return 2;
    int refusal = queue_refusal(queue, queue_length, sender);
    if (refusal)
        return refusal;
    uint8_t header[14] = {(uint8_t)sender->next, (uint8_t)(sender->next >> 8), 0, 0, sender->used ? 0xF1 : 0xF0, 0, 0, 0, 0, 0, 0xC0, 0x8F, 0xFF, 0xFF};
    uint8_t area[AREA] = {0};
    fill(queue, sender, area);
    peer_build(taps, header, area, frame);
    sender->next++;
    return 0;
}

/* ---- a frame that was opened */

/* Whether the area follows the packing rules (14), and its first record can be joined to what is held (15). */
static int area_refusal(const uint8_t area[AREA], size_t held)
{
    size_t at = 0, records = 0;
    int open = 0;
    while (AREA - at >= 3 && mark_at(area + at) != 0) {
        size_t mark = mark_at(area + at), length = mark & 0x7FF, first = mark & 0x8000, last = mark & 0x4000;
        if (open || mark & 0x3800 || length < 1 || length > AREA - at - 2 || (!first && records > 0))
            return 14;
        if (!last && at + 2 + length != AREA)
            return 14;
        if (records == 0 && !first && held && held + length > (last ? 9000 : 8999))
            return 15;
        open = !last;
        records++;
        at += 2 + length;
    }
    for (size_t i = at; i < AREA; i++)
        if (area[i])
            return 14;
    return records ? 0 : 14;
}

static void join(const uint8_t area[AREA], size_t *held, uint8_t *hold, uint8_t *list, struct peer_applied *applied)
{
    for (size_t at = 0; AREA - at >= 3 && mark_at(area + at) != 0;) {
        size_t mark = mark_at(area + at), length = mark & 0x7FF;
        const uint8_t *bytes = area + at + 2;
        if (mark & 0x8000)
            *held = 0;
        if ((mark & 0x8000) || *held) {
            if (mark & 0x4000) {
                uint8_t *entry = list + applied->listed;
                write_mark(entry, *held + length);
                memcpy(entry + 2, hold, *held);
                memcpy(entry + 2 + *held, bytes, length);
                applied->listed += 2 + *held + length;
                applied->packets++;
                *held = 0;
            } else {
                memcpy(hold + *held, bytes, length);
                *held += length;
            }
        }
        at += 2 + length;
    }
}

int peer_apply(const uint8_t header[14], const uint8_t *area, size_t area_length, struct peer_receiver *receiver,
               uint8_t *hold, size_t hold_length, uint8_t *list, size_t list_length, struct peer_applied *applied)
{
    if (area_length != AREA || hold_length != HOLD || list_length < LIST)
        return 2;
    if (receiver->held > 8999)
        return 3;
    if (peer_field_refusal(header))
        return 11;
    uint16_t txfn = (uint16_t)(header[0] | header[1] << 8), missed = receiver->expects ? (uint16_t)(txfn - receiver->expected) : 0;
    size_t held = missed ? 0 : receiver->held;
    struct peer_applied got = {missed, 0, 0};
    if ((header[4] & 3) == 1) {
        int refusal = area_refusal(area, held);
        if (refusal)
            return refusal;
        join(area, &held, hold, list, &got);
    }
    *applied = got;
    receiver->expects = 1;
    receiver->expected = (uint16_t)(txfn + 1);
    receiver->held = held;
    return 0;
}
