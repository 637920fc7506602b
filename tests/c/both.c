/* The library and the model side by side. */
#include "both.h"

#include <stdio.h>
#include <string.h>

lent queue, packet, out, frame, area_bytes, hold, list, header_bytes, part, scratch;
unsigned long calls, comparisons, differences, given[NUMBER_OF_CALLS][256];
unsigned long opened_applied, opened_refused_with_11;

void expect(int same, const char *what)
{
    comparisons++;
    if (same)
        return;
    differences++;
    if (differences <= 20)
        printf("differs: %s (call %lu)\n", what, calls);
}

uint8_t *bytes_of(lent *buffer)
{
    return buffer->library + AROUND;
}

uint8_t *model_bytes_of(lent *buffer)
{
    return buffer->model + AROUND;
}

void set_bytes(lent *buffer, size_t at, const void *from, size_t length)
{
    memcpy(buffer->library + AROUND + at, from, length);
    memcpy(buffer->model + AROUND + at, from, length);
}

void set_byte(lent *buffer, size_t at, uint8_t value)
{
    set_bytes(buffer, at, &value, 1);
}

static uint64_t chance_state = UINT64_C(0x9E3779B97F4A7C15);

void begin_chance(uint64_t seed)
{
    chance_state = seed;
}

uint64_t chance(void)
{
    chance_state ^= chance_state << 13;
    chance_state ^= chance_state >> 7;
    chance_state ^= chance_state << 17;
    return chance_state;
}

size_t below(size_t bound)
{
    return (size_t)(chance() >> 11) % bound;
}

static void fill_with_chance(lent *buffer)
{
    for (size_t i = 0; i < sizeof buffer->library; i++)
        buffer->library[i] = buffer->model[i] = (uint8_t)(chance() >> 32);
}

void fill_all(void)
{
    lent *all[] = {&queue, &packet, &out, &frame, &area_bytes, &hold, &list, &header_bytes, &part, &scratch};
    for (size_t i = 0; i < sizeof all / sizeof all[0]; i++)
        fill_with_chance(all[i]);
}

/* What the library is given: no bytes may be a null pointer. */
static uint8_t *to_library(lent *buffer, size_t length)
{
    return length ? buffer->library + AROUND : NULL;
}

void compare_bytes(const lent *buffer, const char *what)
{
    expect(memcmp(buffer->library, buffer->model, sizeof buffer->library) == 0, what);
}

uint8_t ended(enum call call, uint8_t refusal)
{
    calls++;
    given[call][refusal]++;
    return refusal;
}

/* ---- answers, number by number: what stands between a struct's numbers is no part of it */

int same_sender(taqwelim_sender a, taqwelim_sender b)
{
    return a.start == b.start && a.used == b.used && a.next == b.next;
}

static int same_receiver(taqwelim_receiver a, taqwelim_receiver b)
{
    return a.held == b.held && a.expected == b.expected && a.expects == b.expects;
}

int same_header(taqwelim_header a, taqwelim_header b)
{
    taqwelim_fields f = a.fields, g = b.fields;
    taqwelim_message m = f.message, n = g.message;
    return a.txfn == b.txfn && a.kind == b.kind && f.stamp == g.stamp && f.rxfn == g.rxfn && f.ack == g.ack && f.valid == g.valid && f.seconds == g.seconds
           && f.applies == g.applies && m.opcode == n.opcode && m.first == n.first && m.second == n.second && m.third == n.third;
}

/* What is sent has ones in its reserved bits: four of d4, two of d10, one of d11. */
static void expect_ones(const uint8_t *d, const char *what)
{
    expect(d[4] >= 0xF0 && d[10] >= 0xC0 && d[11] >= 0x80, what);
}

/* ---- the calls */

uint8_t both_put(size_t queue_length, taqwelim_sender *sender, size_t packet_length)
{
    taqwelim_put_answer a = library_put(to_library(&queue, queue_length), queue_length, *sender, to_library(&packet, packet_length), packet_length);
    taqwelim_put_answer b = model_put(model_bytes_of(&queue), queue_length, *sender, model_bytes_of(&packet), packet_length);
    expect(a.refusal == b.refusal && same_sender(a.sender, b.sender), "put's answer");
    compare_bytes(&queue, "the queue after put");
    compare_bytes(&packet, "the packet after put");
    *sender = a.sender;
    return ended(PUT, a.refusal);
}

uint8_t both_waiting(size_t queue_length, taqwelim_sender sender, taqwelim_waiting_answer *answer)
{
    taqwelim_waiting_answer a = library_waiting(to_library(&queue, queue_length), queue_length, sender);
    taqwelim_waiting_answer b = model_waiting(model_bytes_of(&queue), queue_length, sender);
    expect(a.refusal == b.refusal && a.packets == b.packets && a.bytes == b.bytes, "waiting's answer");
    compare_bytes(&queue, "the queue after waiting");
    *answer = a;
    return ended(WAITING, a.refusal);
}

void expect_waiting(taqwelim_sender sender, size_t packets, size_t bytes)
{
    taqwelim_waiting_answer answer;
    expect(both_waiting(TAQWELIM_QUEUE_SIZE, sender, &answer) == 0 && answer.packets == packets && answer.bytes == bytes, "so many packets and bytes wait");
}

uint8_t both_next(uint32_t taps, taqwelim_fields fields, taqwelim_sender *sender, size_t queue_length, size_t out_length)
{
    taqwelim_next_answer a =
        library_next_frame(taps, fields, *sender, to_library(&queue, queue_length), queue_length, to_library(&out, out_length), out_length);
    taqwelim_next_answer b = model_next_frame(taps, fields, *sender, model_bytes_of(&queue), queue_length, model_bytes_of(&out), out_length);
    expect(a.refusal == b.refusal && a.kind == b.kind && same_sender(a.sender, b.sender), "next_frame's answer");
    compare_bytes(&queue, "the queue after next_frame");
    compare_bytes(&out, "the frame of next_frame");
    if (!a.refusal) {
        uint8_t header[TAQWELIM_HEADER_SIZE];
        memcpy(header, bytes_of(&out) + 9, sizeof header);
        model_scramble(taps, header, sizeof header);
        expect_ones(header, "the reserved bits of a frame that is built are ones");
    }
    *sender = a.sender;
    return ended(NEXT_FRAME, a.refusal);
}

uint8_t both_open(uint32_t taps, size_t frame_length, size_t area_length, taqwelim_open_answer *answer)
{
    taqwelim_open_answer a = library_open(taps, to_library(&frame, frame_length), frame_length,
                                          to_library(&area_bytes, area_length), area_length);
    taqwelim_open_answer b =
        model_open(taps, model_bytes_of(&frame), frame_length, model_bytes_of(&area_bytes), area_length);
    expect(a.refusal == b.refusal, "open's refusal");
    expect(same_header(a.header, b.header), "open's header");
    expect(a.repaired == b.repaired, "open's count of repaired bytes");
    compare_bytes(&frame, "the frame after open");
    compare_bytes(&area_bytes, "the area after open");
    *answer = a;
    return ended(OPEN, a.refusal);
}

uint8_t both_repair(uint32_t taps, size_t part_length, size_t scratch_length, taqwelim_repair_answer *answer)
{
    taqwelim_repair_answer a = library_repair(taps, to_library(&part, part_length), part_length,
                                              to_library(&scratch, scratch_length), scratch_length);
    taqwelim_repair_answer b =
        model_repair(taps, model_bytes_of(&part), part_length, model_bytes_of(&scratch), scratch_length);
    expect(a.refusal == b.refusal && a.repaired == b.repaired, "repair's answer");
    compare_bytes(&part, "the part after repair");
    compare_bytes(&scratch, "the scratch after repair");
    *answer = a;
    return ended(REPAIR, a.refusal);
}

uint8_t both_apply(taqwelim_header header, size_t area_length, taqwelim_receiver *receiver, size_t hold_length,
                   size_t list_length, taqwelim_apply_answer *answer)
{
    taqwelim_apply_answer a =
        library_apply(header, to_library(&area_bytes, area_length), area_length, *receiver,
                      to_library(&hold, hold_length), hold_length, to_library(&list, list_length), list_length);
    taqwelim_apply_answer b = model_apply(header, model_bytes_of(&area_bytes), area_length, *receiver,
                                          model_bytes_of(&hold), hold_length, model_bytes_of(&list), list_length);
    expect(a.refusal == b.refusal && same_receiver(a.receiver, b.receiver), "apply's state and refusal");
    expect(a.missed == b.missed && a.packets == b.packets && a.listed == b.listed, "apply's counts");
    compare_bytes(&area_bytes, "the area after apply");
    compare_bytes(&hold, "the hold after apply");
    compare_bytes(&list, "the list after apply");
    *receiver = a.receiver;
    *answer = a;
    return ended(APPLY, a.refusal);
}

uint8_t both_apply_opened(taqwelim_header header, size_t area_length, taqwelim_receiver *receiver, size_t hold_length,
                          size_t list_length, taqwelim_apply_answer *answer)
{
    uint8_t refusal = both_apply(header, area_length, receiver, hold_length, list_length, answer);
    opened_applied++;
    opened_refused_with_11 += refusal == TAQWELIM_REFUSED_FIELD_RULE;
    return refusal;
}

uint8_t both_receive(taqwelim_receiver *receiver, taqwelim_open_answer *opened, taqwelim_apply_answer *answer)
{
    uint8_t refusal = both_open(TAQWELIM_TAPS_0_AND_3, TAQWELIM_FRAME_SIZE, AREA, opened);
    *answer = (taqwelim_apply_answer){.receiver = *receiver, .refusal = refusal};
    if (refusal)
        return refusal;
    return both_apply_opened(opened->header, AREA, receiver, TAQWELIM_HOLD_SIZE, TAQWELIM_LIST_MIN, answer);
}

uint8_t both_entry(size_t list_length, size_t position, taqwelim_entry_answer *answer)
{
    taqwelim_entry_answer a = library_entry(to_library(&list, list_length), list_length, position);
    taqwelim_entry_answer b = model_entry(model_bytes_of(&list), list_length, position);
    taqwelim_place place = library_packet(to_library(&list, list_length), list_length, position);
    expect(a.refusal == b.refusal && a.found == b.found && a.start == b.start && a.length == b.length && a.next == b.next, "entry's answer");
    expect(place.start == b.start && place.length == b.length, "packet's place");
    compare_bytes(&list, "the list after entry and packet");
    *answer = a;
    return ended(ENTRY, a.refusal);
}

uint8_t both_code(taqwelim_header header, size_t length)
{
    taqwelim_code_answer a = library_code_header(header, to_library(&header_bytes, length), length);
    taqwelim_code_answer b = model_code_header(header, model_bytes_of(&header_bytes), length);
    expect(a.refusal == b.refusal, "code_header's answer");
    compare_bytes(&header_bytes, "the bytes of code_header");
    if (!a.refusal)
        expect_ones(bytes_of(&header_bytes), "the reserved bits of a header that is coded are ones");
    return ended(CODE_HEADER, a.refusal);
}

uint8_t both_read(size_t length, taqwelim_header *header)
{
    taqwelim_read_answer a = library_read_header(to_library(&header_bytes, length), length);
    taqwelim_read_answer b = model_read_header(model_bytes_of(&header_bytes), length);
    expect(a.refusal == b.refusal, "read_header's refusal");
    expect(same_header(a.header, b.header), "read_header's header");
    compare_bytes(&header_bytes, "the bytes after read_header");
    *header = a.header;
    return ended(READ_HEADER, a.refusal);
}
