/* Wrong bytes repaired, by open and by repair, beside the model. Up to 8 in the coded header and in each payload word
 * come back as they were sent, and are counted. More never do: no codeword is near, or another one is, and then a check
 * sum refuses it. */
#include "damage.h"

#include <string.h>

enum { FRAME = TAQWELIM_FRAME_SIZE, TAPS = 12, EVERY = 1 << 17 };

static uint32_t taps;
static struct {
    taqwelim_header header;
    uint8_t area[AREA], frame[FRAME];
} sent;
static uint8_t came[FRAME];

/* Taps 0 and 3, tap 0 alone, all of them, and then some by chance. */
static uint32_t some_taps(int which)
{
    static const uint32_t first[] = {TAQWELIM_TAPS_0_AND_3, 1, 0x1FFFFFF};
    return which < 3 ? first[which] : ((uint32_t)chance() & 0x1FFFFFF) | 1;
}

/* A frame of any kind, number and area; it arrives as sent so far. */
static void send(void)
{
    uint8_t header[TAQWELIM_HEADER_SIZE], data[DATA];
    taqwelim_fields fields = TAQWELIM_FIELDS_WITHOUT_MESSAGE;
    fields.stamp = chance() >> 24;
    sent.header = (taqwelim_header){fields, (uint16_t)chance(), (uint8_t)below(4)};
    for (size_t i = 0; i < AREA; i++)
        sent.area[i] = (uint8_t)chance();
    model_header_bytes(sent.header, header);
    model_data(sent.area, data);
    model_frame(taps, header, data, sent.frame);
    memcpy(came, sent.frame, FRAME);
}

/* What arrived is opened. */
static uint8_t open_came(taqwelim_open_answer *opened)
{
    set_bytes(&frame, 0, came, FRAME);
    return both_open(taps, FRAME, AREA, opened);
}

/* Its part is repaired, with a scratch that may be longer: which part is then right, or NULL. */
static const uint8_t *repair_came(taqwelim_repair_answer *answer)
{
    static lent before;
    set_bytes(&part, 0, came + TAQWELIM_PREAMBLE_SIZE, PART);
    before = scratch;
    uint8_t refusal = both_repair(taps, PART, PART + below(100), answer);
    size_t written = answer->repaired ? PART : 0;
    expect(memcmp(bytes_of(&scratch) + written, before.library + AROUND + written, ROOM - written) == 0,
           "the scratch keeps its bytes, but the part that is repaired");
    expect(!refusal || answer->repaired == 0, "a refusal has no count");
    return refusal ? NULL : answer->repaired ? bytes_of(&scratch) : bytes_of(&part);
}

static int is_sent(const uint8_t *repaired)
{
    return repaired && memcmp(repaired, sent.frame + TAQWELIM_PREAMBLE_SIZE, PART) == 0;
}

/* Both calls give what was sent, and count so many wrong bytes. */
static void comes_back(size_t wrong)
{
    taqwelim_open_answer opened;
    taqwelim_repair_answer answer;
    expect(open_came(&opened) == 0 && opened.repaired == wrong, "a frame is opened, and its wrong bytes are counted");
    expect(same_header(opened.header, sent.header), "the header is the one that was sent");
    expect(memcmp(bytes_of(&area_bytes), sent.area, AREA) == 0, "the area is the one that was sent");
    const uint8_t *repaired = repair_came(&answer);
    expect(repaired && answer.repaired == wrong, "its part is repaired, and the wrong bytes are counted");
    expect(is_sent(repaired), "the part is the one that was sent");
}

/* Both calls are refused, repair by the number that it may give. */
static void is_refused(uint8_t opening, uint8_t repairing)
{
    taqwelim_open_answer opened;
    taqwelim_repair_answer answer;
    expect(open_came(&opened) == opening && opened.repaired == 0, "a frame that is not repaired is refused");
    expect(repair_came(&answer) == NULL && answer.refusal == repairing, "a part that is not repaired is refused");
}

/* ---- what is repaired */

static void each_count_in_each_word(void)
{
    for (int word = 0; word < WORDS; word++)
        for (size_t count = 0; count <= REPAIRABLE; count++) {
            send();
            damage_word(came, word, count);
            comes_back(count);
        }
}

static void the_most(void)
{
    send();
    for (int word = 0; word < WORDS; word++)
        damage_word(came, word, REPAIRABLE);
    comes_back(WORDS * REPAIRABLE);
}

/* The first and the last 8 bytes of every word, which is all of them in a run. */
static void at_the_ends(void)
{
    for (int last = 0; last < 2; last++) {
        send();
        for (int word = 0; word < WORDS; word++)
            for (size_t i = 0; i < REPAIRABLE; i++)
                came[place_of(word, last ? sent_bytes(word) - 1 - i : i)] ^= (uint8_t)(1 + below(255));
        comes_back(WORDS * REPAIRABLE);
    }
}

/* What was repaired is a part that opens, and has nothing left to repair. */
static void opens_again(void)
{
    taqwelim_repair_answer answer;
    send();
    size_t wrong = damage_repairable(came, 0);
    const uint8_t *repaired = repair_came(&answer);
    expect(repaired && model_differences(came + TAQWELIM_PREAMBLE_SIZE, repaired, PART) == wrong,
           "part and result differ in so many places");
    expect(answer.repaired == wrong, "the count is that of these places");
    if (repaired)
        memcpy(came + TAQWELIM_PREAMBLE_SIZE, repaired, PART);
    comes_back(0);
}

/* ---- what is not */

/* Nine wrong bytes or more of one word, and up to 8 of each other: no codeword is near, or, once in some 50,000, another
 * one is. */
static void nine(int word)
{
    taqwelim_open_answer opened;
    taqwelim_repair_answer answer;
    send();
    damage_word(came, word, REPAIRABLE + 1 + below(4));
    damage_repairable(came, 1u << word);
    expect(open_came(&opened) != 0, "a frame with more wrong bytes is refused");
    expect(!is_sent(repair_came(&answer)), "and its part does not come back");
}

static void hopeless(int word)
{
    uint8_t number = word == 0 ? TAQWELIM_REFUSED_HEADER_CODE : TAQWELIM_REFUSED_PAYLOAD_CODE;
    send();
    damage_hopeless(came, word);
    damage_repairable(came, 1u << word);
    is_refused(number, number);
}

/* Bytes of another codeword, from the last of the data on: it is 17 bytes away, so with 9 or more of them it is within
 * 8. Repair takes it, and open finds the check sum wrong. */
static void another_is_near(int word, int missing)
{
    taqwelim_open_answer opened;
    taqwelim_repair_answer answer;
    uint8_t wanted = word == 0 ? TAQWELIM_REFUSED_HEADER_CRC : TAQWELIM_REFUSED_PAYLOAD_CRC;
    send();
    add_of_codeword(came, word, WORD - 17, (EVERY - 1) & ~((1u << missing) - 1));
    expect(open_came(&opened) == wanted, "another codeword is near, and the check sum refuses it");
    const uint8_t *repaired = repair_came(&answer);
    expect(repaired && answer.repaired == missing, "repair takes the other codeword");
    add_of_codeword(came, word, WORD - 17, (1u << missing) - 1);
    expect(repaired && memcmp(repaired, came + TAQWELIM_PREAMBLE_SIZE, PART) == 0, "and gives all its bytes");
}

/* Another codeword is within 8, and some of its 17 bytes are among those of the header that are not sent: it is none. */
static void another_is_near_by_what_is_not_sent(size_t unsent)
{
    send();
    size_t added = add_of_codeword(came, 0, UNSENT - unsent, EVERY - 1);
    expect(added == 17 - unsent, "as many bytes are wrong as are sent");
    is_refused(TAQWELIM_REFUSED_HEADER_CODE, TAQWELIM_REFUSED_HEADER_CODE);
}

/* The preamble is not repaired; repair does not have it. */
static void preamble(size_t at)
{
    taqwelim_open_answer opened;
    taqwelim_repair_answer answer;
    send();
    came[at] ^= (uint8_t)(1 + below(255));
    expect(open_came(&opened) == TAQWELIM_REFUSED_PREAMBLE, "a wrong byte of the preamble is refused");
    expect(repair_came(&answer) != NULL && answer.repaired == 0, "and its part is as it was sent");
}

static void try_what_is_not_repaired(void)
{
    for (int word = 0; word < WORDS; word++) {
        hopeless(word);
        for (int missing = 1; missing <= REPAIRABLE; missing++)
            if (word == 0 || word > 4) /* these have a byte of a check sum last in their data */
                another_is_near(word, missing);
        for (int i = 0; i < 20; i++)
            nine(word);
    }
    for (size_t unsent = 1; unsent <= REPAIRABLE; unsent++)
        another_is_near_by_what_is_not_sent(unsent);
    for (size_t at = 0; at < TAQWELIM_PREAMBLE_SIZE; at++)
        preamble(at);
}

void try_repair(void)
{
    fill_all();
    for (int i = 0; i < TAPS; i++) {
        taps = some_taps(i);
        each_count_in_each_word();
        the_most();
        at_the_ends();
        opens_again();
        try_what_is_not_repaired();
    }
}
