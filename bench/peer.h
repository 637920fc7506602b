/* The peer: a plain C coder of the same frames over libfec, to compare instruction counts with. It does the same work
 * as the library, call by call; a header is the first 14 of its bytes. */
#ifndef PEER_H
#define PEER_H

#include <stddef.h>
#include <stdint.h>

enum { AREA = 1908, PAYLOAD = 2040, FRAME = 2081, QUEUE = 32768, HOLD = 9000, LIST = 10907 };

struct peer_sender { size_t start, used; uint16_t next; };
struct peer_receiver { int expects; uint16_t expected; size_t held; };
struct peer_applied { uint16_t missed; size_t packets, listed; };

void peer_start(void);

/* coding.c: each answers 0, or the refusal's number; of words, how many bytes were wrong, or a number
 * below 0 where no codeword is near. */
uint32_t peer_crc_32(const uint8_t *bytes, size_t count);
void peer_scramble(uint32_t taps, uint8_t *bytes, size_t count);
void peer_write_parity(uint8_t payload[PAYLOAD]);
int peer_repair_word(uint8_t word[255]);
int peer_repair_words(uint8_t payload[PAYLOAD]);
void peer_build(uint32_t taps, const uint8_t header[14], const uint8_t area[AREA], uint8_t frame[FRAME]);
int peer_field_refusal(const uint8_t header[14]);
int peer_open(uint32_t taps, const uint8_t *frame, size_t frame_length, uint8_t header[14], uint8_t *area,
              size_t area_length);
int peer_repair(uint32_t taps, const uint8_t *part, size_t part_length, uint8_t *scratch, size_t scratch_length);

/* packing.c */
int peer_put(uint8_t *queue, size_t queue_length, struct peer_sender *sender, const uint8_t *packet, size_t length);
int peer_next_frame(uint32_t taps, uint8_t *queue, size_t queue_length, struct peer_sender *sender, uint8_t *frame, size_t frame_length);
int peer_apply(const uint8_t header[14], const uint8_t *area, size_t area_length, struct peer_receiver *receiver,
               uint8_t *hold, size_t hold_length, uint8_t *list, size_t list_length, struct peer_applied *applied);

#endif
