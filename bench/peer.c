/* Calls the peer COUNT times: peer NAME COUNT [TAPS]. Writes the frame at hand to standard output, with the scratch in its
 * place where a part was repaired. */
#include "inputs.h"
#include "peer.h"

/* DATA, TXFN 0, no acknowledgement, no time, fast channel absent. */
static const uint8_t header[14] = {0, 0, 0, 0, 0xF1, 0, 0, 0, 0, 0, 0xC0, 0x8F, 0xFF, 0xFF};
static uint8_t area[AREA], payload[PAYLOAD], frame[FRAME], opened[AREA], opened_header[14], hold[HOLD], list[LIST], queues[CALLS][QUEUE], packet[PACKET];
static uint8_t scratch[PART], damaged[PAYLOAD], word[255]; /* the first word of `damaged` has 8 wrong bytes */
static const struct given *given; /* to put, next_frame, open and apply; NULL for the parts of a frame's coding */
static struct peer_sender waits;  /* of each queue, before the call */
static volatile uint32_t sum;
static uint32_t taps;

static void repair_word(const char *name)
{
    for (int i = 0; i < 255; i++)
        word[i] = damaged[8 * i];
    must(peer_repair_word(word) != 8, name);
}

static void call(const char *name, int k)
{
    struct peer_sender sender = waits;
    struct peer_receiver receiver = {0, 0, 0};
    struct peer_applied applied;
    if (given && begins(name, "next"))
        must(peer_next_frame(taps, queues[k], QUEUE, &sender, frame, FRAME), name);
    else if (given && begins(name, "put"))
        must(peer_put(queues[k], QUEUE, &sender, packet, given->put), name);
    else if (given && begins(name, "repair"))
        must(peer_repair(taps, frame + 9, PART, scratch, PART), name);
    else if (given && begins(name, "apply"))
        must(peer_apply(opened_header, opened, AREA, &receiver, hold, HOLD, list, LIST, &applied), name);
    else if (!strcmp(name, "write_parity"))
        peer_write_parity(payload);
    else if (!strcmp(name, "remainders"))
        must(peer_repair_words(payload), name);
    else if (!strcmp(name, "repair_word"))
        repair_word(name);
    else if (!strcmp(name, "crc_32"))
        sum = peer_crc_32(area, AREA);
    else if (!strcmp(name, "scramble"))
        peer_scramble(taps, frame + 9, 2072);
    else if (!strcmp(name, "build"))
        peer_build(taps, header, area, frame);
    else if (!strcmp(name, "open") || (given && begins(name, "open")))
        must(peer_open(taps, frame, FRAME, opened_header, opened, AREA), name);
    else
        must(1, name);
}

/* What the call is given: a filled ring, and its next frame for `open` and `repair`, opened for `apply`; or an area, its
 * payload and its frame. */
static void prepare(const char *name)
{
    peer_start();
    fill_area(area);
    memcpy(payload, area, AREA);
    peer_write_parity(payload);
    peer_build(taps, header, area, frame);
    memcpy(damaged, payload, PAYLOAD);
    damage_word(damaged, 8, 31);
    given = given_to(name);
    if (!given)
        return;
    given->fill(packet, PACKET);
    for (int k = 0; k < CALLS; k++) {
        waits.start = given->start;
        waits.used = fill_queue(queues[k], given);
    }
    struct peer_sender sender = waits;
    if (begins(name, "open") || begins(name, "repair") || begins(name, "apply"))
        must(peer_next_frame(taps, queues[0], QUEUE, &sender, frame, FRAME), name);
    damage(frame, given->damaged);
    if (begins(name, "apply"))
        must(peer_open(taps, frame, FRAME, opened_header, opened, AREA), name);
}

int main(int argc, char **argv)
{
    const char *name = argc > 1 ? argv[1] : "no call";
    int count = argc > 2 ? atoi(argv[2]) : 0;
    taps = taps_of(argc, argv);
    prepare(name);
    for (int k = 0; k < count && k < CALLS; k++)
        call(name, k);
    if (given && begins(name, "repair"))
        memcpy(frame + 9, scratch, PART);
    return show(frame, FRAME);
}
