/* What every measured call is given: the same bytes on both sides. */
#ifndef INPUTS_H
#define INPUTS_H

#include <stdint.h>
#include <stdio.h>
#include <stdlib.h>
#include <string.h>

/* ONES packets of one byte leave room for just one more in the ring. WORDS are those of a frame: eight of its payload,
 * and its coded header. */
enum { CALLS = 16, PACKET = 1906, RING = 32768, ONES = 10921, PART = 2072, WORDS = 9 };

/* Bytes that look like samples, and never the same one for long. */
static inline void fill_samples(uint8_t *bytes, size_t count)
{
    for (size_t i = 0; i < count; i++)
        bytes[i] = (uint8_t)(i * 37 + i / 256 * 11 + 5);
}

/* An area that is full: one record, first and last of its packet. */
static inline void fill_area(uint8_t area[1908])
{
    area[0] = 0xC7;
    area[1] = 0x72;
    fill_samples(area + 2, PACKET);
}

/* Bytes without a rule that a code could gain by, the same in every run: Marsaglia's xorshift from a fixed seed. */
static inline void fill_random(uint8_t *bytes, size_t count)
{
    uint32_t state = 2463534242u;
    for (size_t i = 0; i < count; i++) {
        state ^= state << 13;
        state ^= state >> 17;
        state ^= state << 5;
        bytes[i] = (uint8_t)state;
    }
}

/* What a call is given: the packets that wait in the ring, `ones` of one byte and then some of these lengths, from
 * which place on, how many bytes are put, and how many words of a frame have wrong bytes. A frame that is opened, opened
 * and applied, or repaired, is the next one of its queue. Every packet begins with the same bytes, so that frames of long
 * packets have the same bytes but for a mark: what the peer's codes cost goes by the bytes. With a start of 31,000 the
 * ring's end parts the front packet, and the mark of a packet of one byte. */
static const struct given {
    const char *name;
    void (*fill)(uint8_t *bytes, size_t count);
    size_t start, ones, lengths[5], put, damaged;
} inputs[] = {
    {"put", fill_samples, 0, 0, {0}, PACKET, 0},
    {"put_byte", fill_samples, 0, 0, {0}, 1, 0},
    {"put_ones", fill_samples, 0, ONES, {0}, 1, 0},
    {"put_ones_parted", fill_samples, 31000, ONES, {0}, 1, 0},
    {"waiting_one", fill_samples, 0, 0, {PACKET, 0}, 0, 0},
    {"waiting_ones", fill_samples, 0, ONES, {0}, 0, 0},
    {"next_one", fill_samples, 0, 0, {PACKET, 0}, 0, 0},
    {"next_full", fill_samples, 0, 0, {9000, 9000, 9000, 5760, 0}, 0, 0},
    {"next_one_parted", fill_samples, 31000, 0, {PACKET, 0}, 0, 0},
    {"next_full_parted", fill_samples, 31000, 0, {9000, 9000, 9000, 5760, 0}, 0, 0},
    {"next_ones", fill_samples, 0, ONES, {0}, 0, 0},
    {"next_ones_parted", fill_samples, 31000, ONES, {0}, 0, 0},
    {"next_random", fill_random, 0, 0, {PACKET, 0}, 0, 0},
    {"open_one", fill_samples, 0, 0, {PACKET, 0}, 0, 0},
    {"open_random", fill_random, 0, 0, {PACKET, 0}, 0, 0},
    {"open_eight", fill_samples, 0, 0, {PACKET, 0}, 0, 1},
    {"open_most", fill_samples, 0, 0, {PACKET, 0}, 0, WORDS},
    {"repair_none", fill_samples, 0, 0, {PACKET, 0}, 0, 0},
    {"repair_eight", fill_samples, 0, 0, {PACKET, 0}, 0, 1},
    {"repair_most", fill_samples, 0, 0, {PACKET, 0}, 0, WORDS},
    {"apply_one", fill_samples, 0, 0, {PACKET, 0}, 0, 0},
    {"apply_ones", fill_samples, 0, ONES, {0}, 0, 0},
};

/* What the call of this name is given, or NULL. */
static inline const struct given *given_to(const char *name)
{
    for (size_t i = 0; i < sizeof inputs / sizeof inputs[0]; i++)
        if (!strcmp(inputs[i].name, name))
            return &inputs[i];
    return NULL;
}

/* The taps are the third argument, or taps 0 and 3. */
static inline uint32_t taps_of(int argc, char **argv) { return argc > 3 ? (uint32_t)strtoul(argv[3], NULL, 0) : 9; }

static inline int begins(const char *name, const char *word) { return !strncmp(name, word, strlen(word)); }

/* Lays a packet and its mark into the ring; the place behind it. */
static inline size_t lay_packet(uint8_t queue[RING], size_t at, const uint8_t *packet, size_t length)
{
    queue[at++ % RING] = (uint8_t)(length >> 8);
    queue[at++ % RING] = (uint8_t)length;
    for (size_t i = 0; i < length; i++)
        queue[at++ % RING] = packet[i];
    return at;
}

/* Lays the packets that wait into the ring; how many bytes they use. */
static inline size_t fill_queue(uint8_t queue[RING], const struct given *given)
{
    uint8_t packet[9000];
    size_t at = given->start;
    given->fill(packet, sizeof packet);
    for (size_t k = 0; k < given->ones; k++)
        at = lay_packet(queue, at, packet, 1);
    for (const size_t *length = given->lengths; *length; length++)
        at = lay_packet(queue, at, packet, *length);
    return at - given->start;
}

/* As many wrong bytes in a word as are repaired, so far apart; the word's own bytes stand `step` apart. */
static inline void damage_word(uint8_t *word, size_t step, size_t apart)
{
    for (size_t i = 0; i < 8; i++)
        word[step * apart * i] ^= (uint8_t)(0x5A + i);
}

/* The same in so many words of a frame: of 9 the coded header is the last. */
static inline void damage(uint8_t *frame, size_t words)
{
    for (size_t word = 0; word < words && word < 8; word++)
        damage_word(frame + 41 + word, 8, 31);
    if (words == WORDS)
        damage_word(frame + 9, 1, 4);
}

/* So that the frames of both sides can be compared. */
static inline int show(const uint8_t *frame, size_t length)
{
    return fwrite(frame, 1, length, stdout) != length;
}

/* Every call answers 0, or something is wrong and no figure is worth printing. */
static inline void must(int refusal, const char *call)
{
    if (refusal) {
        fprintf(stderr, "%s was refused with %d\n", call, refusal);
        exit(1);
    }
}

#endif
