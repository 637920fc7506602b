/* Calls the library COUNT times: calls NAME COUNT [TAPS]. Writes the frame at hand to standard output, with the scratch in
 * its place where a part was repaired. */
#include "inputs.h"
#include "taqwelim.h"

static uint8_t queues[CALLS][TAQWELIM_QUEUE_SIZE], packet[PACKET], frame[TAQWELIM_FRAME_SIZE], area[TAQWELIM_AREA_SIZE];
static uint8_t hold[TAQWELIM_HOLD_SIZE], list[TAQWELIM_LIST_MIN], scratch[TAQWELIM_PART_SIZE];
static const struct given *given;
static taqwelim_sender sender; /* of each queue, before the call */
static taqwelim_header header; /* of the frame that was opened */
static uint32_t taps;

static void next_frame(const char *name, int k)
{
    taqwelim_fields fields = TAQWELIM_FIELDS_WITHOUT_MESSAGE;
    must(taqwelim_next_frame(taps, fields, sender, queues[k], sizeof queues[k], frame, sizeof frame).refusal, name);
}

static void open_frame(const char *name)
{
    taqwelim_open_answer opened = taqwelim_open(taps, frame, sizeof frame, area, sizeof area);
    must(opened.refusal, name);
    header = opened.header;
}

static void repair(const char *name)
{
    uint8_t *part = frame + TAQWELIM_PREAMBLE_SIZE;
    must(taqwelim_repair(taps, part, TAQWELIM_PART_SIZE, scratch, sizeof scratch).refusal, name);
}

static void apply(const char *name)
{
    taqwelim_receiver fresh = taqwelim_fresh_receiver();
    must(taqwelim_apply(header, area, sizeof area, fresh, hold, sizeof hold, list, sizeof list).refusal, name);
}

static void call(const char *name, int k)
{
    if (begins(name, "next"))
        next_frame(name, k);
    else if (begins(name, "waiting"))
        must(taqwelim_waiting(queues[k], sizeof queues[k], sender).refusal, name);
    else if (begins(name, "put"))
        must(taqwelim_put(queues[k], sizeof queues[k], sender, packet, given->put).refusal, name);
    else if (begins(name, "open"))
        open_frame(name);
    else if (begins(name, "repair"))
        repair(name);
    else
        apply(name);
}

int main(int argc, char **argv)
{
    const char *name = argc > 1 ? argv[1] : "no call";
    int count = argc > 2 ? atoi(argv[2]) : 0;
    taps = taps_of(argc, argv);
    given = given_to(name);
    must(!given, name);
    given->fill(packet, sizeof packet);
    for (int k = 0; k < CALLS; k++) {
        sender.start = given->start;
        sender.used = fill_queue(queues[k], given);
    }
    if (begins(name, "open") || begins(name, "repair") || begins(name, "apply"))
        next_frame(name, 0);
    damage(frame, given->damaged);
    if (begins(name, "apply"))
        open_frame(name);
    for (int k = 0; k < count && k < CALLS; k++)
        call(name, k);
    if (begins(name, "repair"))
        memcpy(frame + TAQWELIM_PREAMBLE_SIZE, scratch, sizeof scratch);
    return show(frame, sizeof frame);
}
