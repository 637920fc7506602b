/* A session over a shaken beam: packets are put, frames are sent, some are lost in bursts and some damaged, of which
 * those with at most 8 wrong bytes in a word are repaired. Beside the model, a ledger that only counts bytes says which
 * packets have to come out of which frame: those of which no frame was lost, in order, and no other. */
#include "damage.h"

#include <stdio.h>
#include <string.h>

enum { PACKETS = 20000, IN_A_FRAME = 700, FIRST_NUMBER = 62000 /* so that the numbers wrap on the way */ };

static struct {
    size_t length;
    unsigned long first; /* the frame of its first bytes */
} packets[PACKETS];

static unsigned long put_count, front;     /* packets put, and those that went out whole */
static size_t sent;                        /* bytes of the front packet that went out */
static unsigned long ending[IN_A_FRAME];   /* the packets that end in this frame */
static size_t endings;

static uint8_t content(unsigned long number, size_t at)
{
    return (uint8_t)(number * 31 + at * 7 + (at >> 8) * 13);
}

static size_t some_length(void)
{
    switch (below(6)) {
    case 0:
        return 1 + below(9000);
    case 1:
        return 1890 + below(30);
    case 2:
        return below(8) ? 1 + below(300) : 9000;
    default:
        return 1 + below(700);
    }
}

static void put_some(taqwelim_sender *sender)
{
    for (size_t n = below(4); n > 0 && put_count < PACKETS; n--) {
        size_t length = some_length();
        for (size_t i = 0; i < length; i++)
            set_byte(&packet, i, content(put_count, i));
        size_t room = TAQWELIM_QUEUE_SIZE - sender->used;
        uint8_t wanted = length + 2 > room ? 5 : 0;
        expect(both_put(TAQWELIM_QUEUE_SIZE, sender, length) == wanted, "a packet is put exactly where there is room");
        if (wanted == 0)
            packets[put_count++].length = length;
    }
}

/* What a frame takes, by counting: a record has two bytes of mark and at least one of a packet. */
static void count_frame(unsigned long number)
{
    size_t room = AREA;
    endings = 0;
    while (front < put_count && room >= 3) {
        size_t left = packets[front].length - sent, taken = left < room - 2 ? left : room - 2;
        if (sent == 0)
            packets[front].first = number;
        sent += taken;
        room -= 2 + taken;
        if (taken == left) {
            ending[endings++] = front++;
            sent = 0;
        }
    }
}

static taqwelim_fields some_fields(void)
{
    static const uint16_t most[16][3] = {{65535, 0, 0}, {16383, 1, 0}, {255, 255, 0}, {16383, 1, 0}, {255, 255, 0}, {31, 31, 63}, {65535, 0, 0}};
    taqwelim_fields f = {0};
    f.valid = (uint8_t)below(2);
    f.ack = (uint8_t)below(2);
    f.rxfn = f.valid ? (uint16_t)chance() : 0;
    f.stamp = chance() >> 24;
    f.seconds = (uint8_t)below(64);
    f.applies = (uint8_t)below(8);
    f.message.opcode = (uint8_t)below(16);
    const uint16_t *limits = most[f.message.opcode];
    f.message.first = (uint16_t)below(limits[0] + 1u);
    f.message.second = (uint16_t)below(limits[1] + 1u);
    f.message.third = (uint16_t)below(limits[2] + 1u);
    return f;
}

/* The list is read packet by packet, and is just what the ledger says; how many packets that were. */
static unsigned long compare_list(taqwelim_apply_answer answer, unsigned long lost_before)
{
    taqwelim_entry_answer entry;
    size_t position = 0, found = 0;
    for (size_t i = 0; i < endings; i++) {
        unsigned long number = ending[i];
        size_t same = 0;
        if (packets[number].first < lost_before)
            continue;
        both_entry(answer.listed, position, &entry);
        expect(entry.found && entry.length == packets[number].length, "a packet comes out with its length");
        while (same < entry.length && bytes_of(&list)[entry.start + same] == content(number, same))
            same++;
        expect(same == packets[number].length, "a packet comes out with its bytes");
        position = entry.next;
        found++;
    }
    expect(both_entry(answer.listed, position, &entry) == 0 && !entry.found, "and no other packet");
    expect(answer.packets == found, "the count of packets");
    return found;
}

/* The frame that was sent arrives. Now and then a word of it has more wrong bytes than are repaired, or its preamble has
 * a wrong bit; more often it has some that are, in one word or in all. Whether it is beyond repair, and how many of its
 * bytes are wrong where it is not. */
static int is_beyond_repair(size_t *wrong)
{
    uint8_t bytes[TAQWELIM_FRAME_SIZE];
    size_t kind = below(100);
    *wrong = 0;
    memcpy(bytes, bytes_of(&out), sizeof bytes);
    if (kind == 0)
        bytes[below(TAQWELIM_PREAMBLE_SIZE)] ^= (uint8_t)(1u << below(8));
    else if (kind == 1)
        damage_word(bytes, (int)below(WORDS), REPAIRABLE + 1 + below(20));
    else if (kind < 6)
        damage_word(bytes, (int)below(WORDS), *wrong = 1 + below(REPAIRABLE));
    else if (kind < 10)
        *wrong = damage_repairable(bytes, 0);
    set_bytes(&frame, 0, bytes, sizeof bytes);
    return kind < 2;
}

void try_session(unsigned long frames)
{
    unsigned long lost = 0, damaged = 0, repaired = 0, delivered = 0, accepted = 0, after_lost = 0, last_accepted = 0;
    int shaken = 0;
    size_t wrong;
    taqwelim_sender sender = library_fresh_sender();
    taqwelim_receiver receiver = library_fresh_receiver();
    taqwelim_open_answer opened;
    taqwelim_apply_answer answer;
    sender.next = FIRST_NUMBER;
    fill_all();
    for (unsigned long k = 0; k < frames; k++) {
        put_some(&sender);
        expect(both_next(TAQWELIM_TAPS_0_AND_3, some_fields(), &sender, TAQWELIM_QUEUE_SIZE, TAQWELIM_FRAME_SIZE) == 0, "a frame is sent");
        count_frame(k);
        shaken = shaken ? below(4) != 0 : below(40) == 0;
        if (shaken && below(8)) {
            lost++;
            after_lost = k + 1;
            continue;
        }
        if (is_beyond_repair(&wrong)) {
            damaged++;
            after_lost = k + 1;
            expect(both_receive(&receiver, &opened, &answer) != 0, "a frame beyond repair is refused");
            continue;
        }
        expect(both_receive(&receiver, &opened, &answer) == 0, "a frame that is whole or repaired is accepted");
        expect(opened.repaired == wrong, "the count of its wrong bytes");
        expect(opened.header.txfn == (uint16_t)(FIRST_NUMBER + k), "the header has the frame's number");
        repaired += wrong > 0;
        expect(answer.missed == (accepted ? k - last_accepted - 1 : 0), "the missed count is the number of frames lost");
        accepted++;
        last_accepted = k;
        delivered += compare_list(answer, after_lost);
    }
    printf("session: %lu frames sent, %lu lost, %lu beyond repair, %lu accepted, of which %lu repaired; "
           "%lu packets put, %lu sent whole, %lu delivered\n",
           frames, lost, damaged, accepted, repaired, put_count, front, delivered);
}
