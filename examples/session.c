/* A session over a beam that is shaken: at each tick a packet is put and a frame is sent. One frame is lost, one is
 * damaged and repaired, and one beyond repair; the packets that come out are whole and in their turn. session.cpp is
 * the same in C++.
 *
 *     tests/archive
 *     cc -std=c99 -Iinclude examples/session.c target/staticlib/libtaqwelim.a -o target/session
 */
#include "taqwelim.h"

#include <stdio.h>
#include <stdlib.h>
#include <string.h>

static const size_t lengths[] = {700, 1500, 2400, 900, 300, 4000}; /* of the packets A to F */
enum { TICKS = sizeof lengths / sizeof lengths[0], LOST = 2 };
static const int wrong[TICKS] = {0, 8, 0, 0, 9, 0}; /* bytes of one word that the beam damages: 8 are repaired */

/* Makes the packet of a tick; its length. */
static size_t make_packet(int tick, uint8_t *packet)
{
    memset(packet, 'A' + tick, lengths[tick]);
    return lengths[tick];
}

/* The beam: whether the frame of a tick arrives, and as what. */
static int arrives(int tick, uint8_t *frame)
{
    for (int i = 0; i < wrong[tick]; i++)
        frame[TAQWELIM_FRAME_SIZE - 1 - 8 * i] ^= 1; /* a word's bytes stand eight apart */
    if (tick == LOST)
        printf("frame %d: lost\n", tick);
    return tick != LOST;
}

int main(void)
{
    /* README: from here */
    static uint8_t packet[TAQWELIM_PACKET_MAX], queue[TAQWELIM_QUEUE_SIZE], frame[TAQWELIM_FRAME_SIZE];
    static uint8_t area[TAQWELIM_AREA_SIZE], hold[TAQWELIM_HOLD_SIZE], list[TAQWELIM_LIST_MIN];
    taqwelim_sender sender = taqwelim_fresh_sender();
    taqwelim_receiver receiver = taqwelim_fresh_receiver();
    taqwelim_fields fields = TAQWELIM_FIELDS_WITHOUT_MESSAGE;
    for (int tick = 0; tick < TICKS; tick++) {
        /* the near end puts a packet, and sends what waits in a frame */
        taqwelim_put_answer put = taqwelim_put(queue, sizeof queue, sender, packet, make_packet(tick, packet));
        taqwelim_next_answer next = taqwelim_next_frame(TAQWELIM_TAPS_0_AND_3, fields, put.sender,
                                                        queue, sizeof queue, frame, sizeof frame);
        sender = next.sender;
        if (put.refusal || next.refusal)
            return EXIT_FAILURE;
        if (!arrives(tick, frame))
            continue;
        /* the far end opens it and applies what was opened, and reads the list of the packets that it completes */
        taqwelim_open_answer opened = taqwelim_open(TAQWELIM_TAPS_0_AND_3, frame, sizeof frame, area, sizeof area);
        taqwelim_apply_answer applied = {.receiver = receiver, .refusal = opened.refusal};
        if (!opened.refusal)
            applied = taqwelim_apply(opened.header, area, sizeof area, receiver, hold, sizeof hold, list, sizeof list);
        receiver = applied.receiver; /* as it was, where either call refuses */
        printf("frame %d: refusal %d, %d bytes repaired, %d missed before it\n", tick, applied.refusal, opened.repaired,
               applied.missed);
        for (taqwelim_entry_answer entry = taqwelim_entry(list, applied.listed, 0); entry.found;
             entry = taqwelim_entry(list, applied.listed, entry.next))
            printf("  packet %c of %zu bytes\n", list[entry.start], entry.length);
    }
    /* README: to here */
    taqwelim_waiting_answer waiting = taqwelim_waiting(queue, sizeof queue, sender);
    printf("packets that wait: %zu, with %zu bytes to send\n", waiting.packets, waiting.bytes);
    return waiting.refusal ? EXIT_FAILURE : EXIT_SUCCESS;
}
