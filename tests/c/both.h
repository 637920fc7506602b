/* Every call, made of the library and of the model at once: the two answers and every lent byte, with those around it, are compared after each. */
#ifndef BOTH_H
#define BOTH_H

#include "model.h"
#include "stack.h"

#define AROUND 64 /* bytes before and behind what is lent */
#define ROOM 33000

/* Bytes to lend, twice: those that the library gets and those that the model gets. They hold the same before each call, and should after it. */
typedef struct {
    uint8_t library[AROUND + ROOM + AROUND];
    uint8_t model[AROUND + ROOM + AROUND];
} lent;

extern lent queue, packet, out, frame, area_bytes, hold, list, header_bytes, part, scratch;

/* ---- counts */
enum call { PUT, WAITING, NEXT_FRAME, OPEN, REPAIR, APPLY, ENTRY, CODE_HEADER, READ_HEADER, NUMBER_OF_CALLS };
extern unsigned long calls, comparisons, differences;
extern unsigned long given[NUMBER_OF_CALLS][256];                 /* how often each call ended with each number */
extern unsigned long opened_applied, opened_refused_with_11;      /* headers that open gave and apply got */

void expect(int same, const char *what);
uint8_t ended(enum call call, uint8_t refusal);                   /* counts a call; gives the number back */
int same_sender(taqwelim_sender a, taqwelim_sender b);
int same_header(taqwelim_header a, taqwelim_header b);

/* ---- what is lent */
uint8_t *bytes_of(lent *buffer);                                  /* the library's, to look at */
uint8_t *model_bytes_of(lent *buffer);
void compare_bytes(const lent *buffer, const char *what);         /* every byte of both, and those around them */
void set_bytes(lent *buffer, size_t at, const void *from, size_t length);
void set_byte(lent *buffer, size_t at, uint8_t value);
void fill_all(void);                                              /* with bytes at random, and around them */

/* ---- bytes and numbers at random, the same in each run */
void begin_chance(uint64_t seed);
uint64_t chance(void);
size_t below(size_t bound);                                       /* 0 to bound - 1 */

/* ---- the calls; a state is replaced by the answer's. Each gives the refusal's number. */
uint8_t both_put(size_t queue_length, taqwelim_sender *sender, size_t packet_length);
uint8_t both_waiting(size_t queue_length, taqwelim_sender sender, taqwelim_waiting_answer *answer);
void expect_waiting(taqwelim_sender sender, size_t packets, size_t bytes);
uint8_t both_next(uint32_t taps, taqwelim_fields fields, taqwelim_sender *sender, size_t queue_length, size_t out_length);
uint8_t both_open(uint32_t taps, size_t frame_length, size_t area_length, taqwelim_open_answer *answer);
uint8_t both_repair(uint32_t taps, size_t part_length, size_t scratch_length, taqwelim_repair_answer *answer);
uint8_t both_apply(taqwelim_header header, size_t area_length, taqwelim_receiver *receiver, size_t hold_length,
                   size_t list_length, taqwelim_apply_answer *answer);
uint8_t both_apply_opened(taqwelim_header header, size_t area_length, taqwelim_receiver *receiver, size_t hold_length,
                          size_t list_length, taqwelim_apply_answer *answer); /* a header that open gave */
uint8_t both_entry(size_t list_length, size_t position, taqwelim_entry_answer *answer);
uint8_t both_code(taqwelim_header header, size_t length);
uint8_t both_read(size_t length, taqwelim_header *header);

/* ---- the frame at hand received: opened, and what was opened applied. The first refusal stands; where it is open's,
 *      the answer has the state as it was, and zeros. */
uint8_t both_receive(taqwelim_receiver *receiver, taqwelim_open_answer *opened, taqwelim_apply_answer *answer);

/* ---- the tests */
void try_numbers(void);
void try_refusals(void);
void try_repair(void);
void try_session(unsigned long frames);
void try_chance(unsigned long rounds);
void try_ring(unsigned long frames);

#endif
