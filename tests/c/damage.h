/* Wrong bytes in the words of a frame (damage.c). Word 0 is its coded header, words 1 to 8 are those of its payload.
 * What is added to a frame's bytes is added to its words: scrambled or not, it is the same. */
#ifndef DAMAGE_H
#define DAMAGE_H

#include "both.h"

enum { WORDS = 9, REPAIRABLE = 8 /* wrong bytes of one word */ };

size_t sent_bytes(int word);                                  /* 32 or 255 */
size_t place_of(int word, size_t byte);                       /* in the frame */
void damage_word(uint8_t *bytes, int word, size_t count);     /* so many of its bytes, by chance, get other values */
size_t damage_repairable(uint8_t *bytes, unsigned but);       /* up to 8 of each word but these (bits); how many */
void damage_hopeless(uint8_t *bytes, int word);               /* 9 bytes, and no codeword is near */

/* Adds the bytes i of a codeword, for the bits i of `which`: it has 17 bytes that are not 0, which begin at a byte of
 * the word's 255 and stand side by side. Where 9 to 16 are added, the sum of both is nearer than what was sent. How many
 * were added: those of the header that are not sent cannot be. */
size_t add_of_codeword(uint8_t *bytes, int word, size_t at, unsigned which);

#endif
