/* Every call of the library is made on a stack of its own, painted before the first. How far down the paint is gone after the last is the most that the call
 * took, with its arguments and its answer: it is held to the header file's figure. */
#define _XOPEN_SOURCE 700 /* ucontext.h */
#include "both.h"

#include <stdio.h>
#include <ucontext.h>

/* What a call is given, and its answer. Each has its own among them. */
static struct {
    uint32_t taps;
    taqwelim_header header; /* for a frame, its fields */
    taqwelim_sender sender;
    taqwelim_receiver receiver;
    uint8_t *queue, *out, *hold, *list; /* to be written, and so long: */
    size_t queue_length, out_length, hold_length, list_length;
    const uint8_t *bytes; /* to be read, whatever they are, and so long: */
    size_t length, position;
    uint8_t code;
    union {
        taqwelim_sender fresh_sender;
        taqwelim_put_answer put;
        taqwelim_waiting_answer waiting;
        taqwelim_next_answer next_frame;
        taqwelim_receiver fresh_receiver;
        taqwelim_open_answer open;
        taqwelim_repair_answer repair;
        taqwelim_apply_answer apply;
        taqwelim_entry_answer entry;
        taqwelim_place packet;
        taqwelim_code_answer code_header;
        taqwelim_read_answer read_header;
        int32_t level;
    } answer;
} it;

/* ---- the calls, on whatever stack */

static void fresh_sender(void)
{
    it.answer.fresh_sender = taqwelim_fresh_sender();
}

static void put(void)
{
    it.answer.put = taqwelim_put(it.queue, it.queue_length, it.sender, it.bytes, it.length);
}

static void waiting(void)
{
    it.answer.waiting = taqwelim_waiting(it.bytes, it.length, it.sender);
}

static void next_frame(void)
{
    it.answer.next_frame = taqwelim_next_frame(it.taps, it.header.fields, it.sender, it.queue, it.queue_length, it.out, it.out_length);
}

static void fresh_receiver(void)
{
    it.answer.fresh_receiver = taqwelim_fresh_receiver();
}

static void open_frame(void)
{
    it.answer.open = taqwelim_open(it.taps, it.bytes, it.length, it.out, it.out_length);
}

static void repair(void)
{
    it.answer.repair = taqwelim_repair(it.taps, it.bytes, it.length, it.out, it.out_length);
}

static void apply_opened(void)
{
    it.answer.apply = taqwelim_apply(it.header, it.bytes, it.length, it.receiver, it.hold, it.hold_length, it.list,
                                     it.list_length);
}

static void entry(void)
{
    it.answer.entry = taqwelim_entry(it.bytes, it.length, it.position);
}

static void packet_place(void)
{
    it.answer.packet = taqwelim_packet(it.bytes, it.length, it.position);
}

static void code_header(void)
{
    it.answer.code_header = taqwelim_code_header(it.header, it.out, it.out_length);
}

static void read_header(void)
{
    it.answer.read_header = taqwelim_read_header(it.bytes, it.length);
}

static void level(void)
{
    it.answer.level = taqwelim_level(it.code);
}

/* ---- the stacks */

enum { STACK = 32768 };

static struct stack {
    const char *name;
    void (*call)(void);
    size_t most; /* by the header file */
    uint8_t bytes[STACK];
} stacks[] = {
    {"fresh_sender", fresh_sender, TAQWELIM_STACK_OTHERS, {0}},
    {"put", put, TAQWELIM_STACK_OTHERS, {0}},
    {"waiting", waiting, TAQWELIM_STACK_OTHERS, {0}},
    {"next_frame", next_frame, TAQWELIM_STACK_NEXT_FRAME, {0}},
    {"fresh_receiver", fresh_receiver, TAQWELIM_STACK_OTHERS, {0}},
    {"open", open_frame, TAQWELIM_STACK_OPEN, {0}},
    {"repair", repair, TAQWELIM_STACK_REPAIR, {0}},
    {"apply", apply_opened, TAQWELIM_STACK_OTHERS, {0}},
    {"entry", entry, TAQWELIM_STACK_OTHERS, {0}},
    {"packet", packet_place, TAQWELIM_STACK_OTHERS, {0}},
    {"code_header", code_header, TAQWELIM_STACK_OTHERS, {0}},
    {"read_header", read_header, TAQWELIM_STACK_OTHERS, {0}},
    {"level", level, TAQWELIM_STACK_OTHERS, {0}},
};
enum { CALLS = sizeof stacks / sizeof stacks[0] };

static uint8_t paint(size_t at)
{
    return (uint8_t)(at * 37 + 11);
}

void paint_stacks(void)
{
    for (size_t i = 0; i < CALLS; i++)
        for (size_t at = 0; at < STACK; at++)
            stacks[i].bytes[at] = paint(at);
}

/* A stack grows down: what was taken of it lies above the lowest byte that is changed. */
static size_t taken(const struct stack *of)
{
    size_t at = 0;
    while (at < STACK && of->bytes[at] == paint(at))
        at++;
    return STACK - at;
}

void try_stacks(void)
{
    printf("stack, the most bytes of each call:");
    for (size_t i = 0; i < CALLS; i++)
        printf(" %s %zu", stacks[i].name, taken(&stacks[i]));
    printf("\n");
    for (size_t i = 0; i < CALLS; i++) {
        size_t bytes = taken(&stacks[i]);
        expect(bytes > 0 && bytes <= stacks[i].most && bytes <= TAQWELIM_STACK_MAX, "every call was made, within the header file's figure for its stack");
    }
}

static void make(void (*call)(void))
{
    static ucontext_t here, there;
    size_t i = 0;
    while (stacks[i].call != call)
        i++;
    getcontext(&there);
    there.uc_stack.ss_sp = stacks[i].bytes;
    there.uc_stack.ss_size = STACK;
    there.uc_link = &here;
    makecontext(&there, call, 0);
    swapcontext(&here, &there);
}

/* ---- the calls, on their own stacks */

taqwelim_sender library_fresh_sender(void)
{
    make(fresh_sender);
    return it.answer.fresh_sender;
}

taqwelim_put_answer library_put(uint8_t *queue, size_t queue_length, taqwelim_sender sender, const uint8_t *packet, size_t packet_length)
{
    it.queue = queue, it.queue_length = queue_length, it.sender = sender, it.bytes = packet, it.length = packet_length;
    make(put);
    return it.answer.put;
}

taqwelim_waiting_answer library_waiting(const uint8_t *queue, size_t queue_length, taqwelim_sender sender)
{
    it.bytes = queue, it.length = queue_length, it.sender = sender;
    make(waiting);
    return it.answer.waiting;
}

taqwelim_next_answer library_next_frame(uint32_t taps, taqwelim_fields fields, taqwelim_sender sender, uint8_t *queue, size_t queue_length, uint8_t *out,
                                        size_t out_length)
{
    it.taps = taps, it.header.fields = fields, it.sender = sender, it.queue = queue, it.queue_length = queue_length, it.out = out, it.out_length = out_length;
    make(next_frame);
    return it.answer.next_frame;
}

taqwelim_receiver library_fresh_receiver(void)
{
    make(fresh_receiver);
    return it.answer.fresh_receiver;
}

taqwelim_open_answer library_open(uint32_t taps, const uint8_t *frame, size_t frame_length, uint8_t *area,
                                  size_t area_length)
{
    it.taps = taps, it.bytes = frame, it.length = frame_length, it.out = area, it.out_length = area_length;
    make(open_frame);
    return it.answer.open;
}

taqwelim_repair_answer library_repair(uint32_t taps, const uint8_t *part, size_t part_length, uint8_t *scratch,
                                      size_t scratch_length)
{
    it.taps = taps, it.bytes = part, it.length = part_length, it.out = scratch, it.out_length = scratch_length;
    make(repair);
    return it.answer.repair;
}

taqwelim_apply_answer library_apply(taqwelim_header header, const uint8_t *area, size_t area_length,
                                    taqwelim_receiver receiver, uint8_t *hold, size_t hold_length, uint8_t *list,
                                    size_t list_length)
{
    it.header = header, it.bytes = area, it.length = area_length, it.receiver = receiver;
    it.hold = hold, it.hold_length = hold_length, it.list = list, it.list_length = list_length;
    make(apply_opened);
    return it.answer.apply;
}

taqwelim_entry_answer library_entry(const uint8_t *list, size_t list_length, size_t position)
{
    it.bytes = list, it.length = list_length, it.position = position;
    make(entry);
    return it.answer.entry;
}

taqwelim_place library_packet(const uint8_t *list, size_t list_length, size_t position)
{
    it.bytes = list, it.length = list_length, it.position = position;
    make(packet_place);
    return it.answer.packet;
}

taqwelim_code_answer library_code_header(taqwelim_header header, uint8_t *out, size_t out_length)
{
    it.header = header, it.out = out, it.out_length = out_length;
    make(code_header);
    return it.answer.code_header;
}

taqwelim_read_answer library_read_header(const uint8_t *bytes, size_t length)
{
    it.bytes = bytes, it.length = length;
    make(read_header);
    return it.answer.read_header;
}

int32_t library_level(uint8_t code)
{
    it.code = code;
    make(level);
    return it.answer.level;
}
