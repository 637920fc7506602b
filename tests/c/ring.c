/* Very many frames through a ring whose start is never 0, beside the sender as it was before the ring (paper 01): its queue begins at byte 0, and what waits
 * is moved there for every frame. The same puts get the same answers, and the frames are the same byte for byte. Of the ring's bytes, a put writes only mark
 * and packet, and a frame only the new mark of a packet that it cuts. */
#include "both.h"

#include <stdio.h>
#include <string.h>

enum {
    SIZE = TAQWELIM_QUEUE_SIZE,
    LAST = SIZE - 1,
    CUT_FREES = AREA - 2, /* what a frame frees that cuts a packet: all that it carries but the room of the new mark */
    FIRST_START = 20001
};

/* The seed was tried until none of so many frames left the start at 0. Fewer than the least need not meet every case. */
static const uint64_t seed = UINT64_C(0x4B4C3C1004E5DDC9);
enum { NEVER_0 = 100000, LEAST = 3000 };

static taqwelim_sender sender; /* the library's; its ring is `queue` */
static struct {
    uint8_t queue[SIZE];
    size_t used;
} moved; /* the sender before the ring */

static unsigned long over_the_end, parted_when_put, parted_when_cut, refused_with_5, idle;

/* ---- lengths of packets, some of them aimed at the ring's end */

static size_t or_any(size_t length)
{
    return length >= 1 && length <= TAQWELIM_PACKET_MAX ? length : 1 + below(TAQWELIM_PACKET_MAX);
}

/* Where nothing waits: first a packet that, sent alone, leaves the start one cut before the last byte; then the longest, which is cut there. Otherwise 0. */
static size_t length_before_a_parted_cut(void)
{
    size_t to_last = LAST - sender.start;
    if (sender.used > 0)
        return 0;
    if (to_last == CUT_FREES)
        return TAQWELIM_PACKET_MAX;
    return to_last > CUT_FREES + 2 && to_last <= 2 * CUT_FREES + 2 ? to_last - CUT_FREES - 2 : 0;
}

static size_t some_length(void)
{
    size_t length = length_before_a_parted_cut();
    if (length)
        return length;
    switch (below(8)) {
    case 0: /* the end parts the mark behind this packet */
        return or_any(LAST - (sender.start + sender.used + 2) % SIZE);
    case 1: /* just fits, or just does not */
        return or_any(SIZE - sender.used + below(2) - 2);
    case 2:
        return or_any(0);
    case 3: /* about the end of an area */
        return 1900 + below(12);
    default:
        return 1 + below(700);
    }
}

/* ---- the calls */

static uint8_t put_moved(const uint8_t *bytes, size_t length)
{
    if (moved.used + 2 + length > SIZE)
        return 5;
    model_put_mark(moved.queue + moved.used, (unsigned)length);
    memcpy(moved.queue + moved.used + 2, bytes, length);
    moved.used += 2 + length;
    return 0;
}

/* What waits, counted off the queue that begins at byte 0. */
static void compare_waiting(void)
{
    size_t packets = model_count(moved.queue, moved.used);
    taqwelim_waiting_answer answer = library_waiting(bytes_of(&queue), SIZE, sender);
    expect(ended(WAITING, answer.refusal) == 0 && answer.packets == packets && answer.bytes == moved.used - 2 * packets,
           "what waits, with a ring and without");
    compare_bytes(&queue, "waiting writes nothing");
}

static void put_some(void)
{
    size_t length = some_length(), behind = sender.start + sender.used, before = moved.used;
    const uint8_t *bytes = bytes_of(&packet) + below(ROOM - TAQWELIM_PACKET_MAX); /* so that packets differ */
    taqwelim_put_answer answer = library_put(bytes_of(&queue), SIZE, sender, bytes, length);
    expect(ended(PUT, answer.refusal) == put_moved(bytes, length), "the answer to a put, with a ring and without");
    expect(same_sender(answer.sender, (taqwelim_sender){sender.start, moved.used, sender.next}), "the state after a put");
    model_write_round(model_bytes_of(&queue), behind, moved.queue + before, moved.used - before);
    compare_bytes(&queue, "put writes mark and packet, and nothing else");
    refused_with_5 += answer.refusal == 5;
    parted_when_put += !answer.refusal && behind % SIZE == LAST;
    sender = answer.sender;
    compare_waiting();
}

static void build_moved(taqwelim_header header)
{
    uint8_t bytes[16], area[AREA], data[DATA];
    moved.used = model_fill(area, moved.queue, moved.used);
    model_header_bytes(header, bytes);
    model_data(area, data);
    model_frame(TAQWELIM_TAPS_0_AND_3, bytes, data, model_bytes_of(&out));
}

static void send_frame(unsigned long number)
{
    taqwelim_fields fields = TAQWELIM_FIELDS_WITHOUT_MESSAGE;
    fields.stamp = number;
    taqwelim_header header = {fields, sender.next, sender.used ? TAQWELIM_KIND_DATA : TAQWELIM_KIND_IDLE};
    taqwelim_next_answer answer =
        library_next_frame(TAQWELIM_TAPS_0_AND_3, fields, sender, bytes_of(&queue), SIZE, bytes_of(&out), TAQWELIM_FRAME_SIZE);
    build_moved(header);
    size_t start = (sender.start + sender.used - moved.used) % SIZE;
    int is_cut = moved.used > 0 && moved.queue[0] >= 0x80;
    expect(ended(NEXT_FRAME, answer.refusal) == 0 && answer.kind == header.kind, "a frame is built, and of which kind");
    expect(same_sender(answer.sender, (taqwelim_sender){start, moved.used, (uint16_t)(sender.next + 1)}), "the state after a frame");
    expect(start != 0 || number >= NEVER_0, "the start is never 0");
    compare_bytes(&out, "a frame, with a ring and without");
    if (is_cut)
        model_write_round(model_bytes_of(&queue), start, moved.queue, 2);
    compare_bytes(&queue, "a frame writes the new mark, and nothing else of the ring");
    idle += header.kind == TAQWELIM_KIND_IDLE;
    over_the_end += start < sender.start;
    parted_when_cut += is_cut && start == LAST;
    sender = answer.sender;
    compare_waiting();
}

void try_ring(unsigned long frames)
{
    fill_all();
    begin_chance(seed); /* behind the filling, so that a buffer more changes no length */
    sender = (taqwelim_sender){FIRST_START, 0, 0};
    moved.used = 0;
    for (unsigned long k = 0; k < frames; k++) {
        /* in turn a stretch in which the ring runs full and one in which it runs empty */
        for (size_t puts = below(k / 100 % 2 ? 2 : 4); puts > 0; puts--)
            put_some();
        send_frame(k);
    }
    printf("ring: %lu frames, %lu of them IDLE; the start went over the end %lu times; marks parted by it: %lu put, %lu cut; %lu puts refused with 5\n", frames,
           idle, over_the_end, parted_when_put, parted_when_cut, refused_with_5);
    expect(frames < LEAST || (over_the_end && parted_when_put && parted_when_cut && refused_with_5 && idle), "each of these was tried");
}
