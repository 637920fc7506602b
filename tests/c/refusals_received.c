/* The refusals of open and apply one after the other, of entry, and of read_header. */
#include "refusals.h"

#include <string.h>

static const uint32_t taps = TAQWELIM_TAPS_0_AND_3;

/* ---- read_header: 2, 9, 11 */

static void read_refused(uint8_t wanted, size_t length)
{
    taqwelim_header header;
    keep();
    refused(both_read(length, &header), wanted, "read_header is refused");
}

static void read_changed(uint8_t wanted, size_t at, uint8_t value)
{
    uint8_t bytes[16];
    model_header_bytes((taqwelim_header){good_fields(), 5, 2}, bytes);
    bytes[at] = value;
    model_seal_header(bytes);
    set_bytes(&header_bytes, 0, bytes, 16);
    read_refused(wanted, 16);
}

static void read(void)
{
    uint8_t bytes[16];
    model_header_bytes((taqwelim_header){good_fields(), 5, 2}, bytes);
    bytes[15] ^= 1;
    set_bytes(&header_bytes, 0, bytes, 16);
    read_refused(TAQWELIM_REFUSED_LENGTH, 15);
    read_refused(TAQWELIM_REFUSED_LENGTH, 17);
    read_refused(TAQWELIM_REFUSED_LENGTH, 0);
    read_refused(TAQWELIM_REFUSED_HEADER_CRC, 16);
    read_changed(TAQWELIM_REFUSED_FIELD_RULE, 4, 0xFA);  /* ACK-valid 0 and RXFN not 0 */
    read_changed(TAQWELIM_REFUSED_FIELD_RULE, 4, 0x7A);  /* and a reserved bit cleared beside it */
    read_changed(TAQWELIM_REFUSED_FIELD_RULE, 12, 0xFE); /* lock 2 */
    read_changed(TAQWELIM_REFUSED_FIELD_RULE, 11, 0xDF); /* absent, and not FFFF */
    read_changed(TAQWELIM_REFUSED_FIELD_RULE, 11, 0xD8); /* reserved, and not 0 */
}

/* ---- open, then apply: the first refusal stands */

/* The frame at hand is opened, and what was opened applied to this: numbers of the frame are open's, others apply's. */
static void receive_refused(uint8_t wanted, taqwelim_receiver receiver, size_t hold_length, size_t list_length)
{
    taqwelim_open_answer opened;
    keep();
    uint8_t number = both_open(taps, 2081, 1908, &opened);
    if (wanted >= TAQWELIM_REFUSED_PREAMBLE && wanted <= TAQWELIM_REFUSED_PAYLOAD_CRC) {
        refused(number, wanted, "open is refused");
        return;
    }
    expect(number == 0, "open is not refused");
    apply_refused(wanted, opened.header, 1908, receiver, hold_length, list_length);
}

/* What is wrong with a frame is told before what is wrong with receiver, hold and list, and that before what is wrong
 * with its area. */
static void one_after_the_other(void)
{
    static const uint8_t numbers[] = {7, 8, 9, 11, 12, 13};
    taqwelim_receiver fresh = library_fresh_receiver(), holds = {8999, 7, 1}, past = {9000, 7, 1};
    for (size_t i = 0; i < sizeof numbers; i++) {
        forge(TAQWELIM_KIND_DATA, area_of(0x8000), WRONG(numbers[i]));
        receive_refused(numbers[i], fresh, 8999, 10907);
        receive_refused(numbers[i], fresh, 9000, 10906);
        receive_refused(numbers[i], past, 9000, 10907);
    }
    forge(TAQWELIM_KIND_DATA, area_of(0xC001), 0);
    receive_refused(TAQWELIM_REFUSED_LENGTH, fresh, 8999, 10907);
    receive_refused(TAQWELIM_REFUSED_LENGTH, fresh, 9000, 10906);
    receive_refused(TAQWELIM_REFUSED_STATE, past, 9000, 10907);
    forge(TAQWELIM_KIND_DATA, area_of(0x8000), 0);
    receive_refused(TAQWELIM_REFUSED_LENGTH, past, 8999, 10907);
    receive_refused(TAQWELIM_REFUSED_STATE, past, 9000, 10907);
    receive_refused(TAQWELIM_REFUSED_PACKING, holds, 9000, 10907);
    forge(TAQWELIM_KIND_DATA, area_of(0x4002), 0);
    receive_refused(TAQWELIM_REFUSED_TOO_LONG, holds, 9000, 10907);
}

static void with_reserved(uint8_t *d, unsigned choice)
{
    d[4] = (uint8_t)((d[4] & 0x0F) | (choice >> 3) << 4);
    d[10] = (uint8_t)((d[10] & 0x3F) | (choice >> 1 & 3) << 6);
    d[11] = (uint8_t)((d[11] & 0x7F) | (choice & 1) << 7);
}

static void set_frame(const uint8_t *header)
{
    uint8_t data[DATA], whole[TAQWELIM_FRAME_SIZE];
    model_data((const uint8_t[AREA]){0xC0, 0x01, 0xAA}, data);
    model_frame(taps, header, data, whole);
    set_bytes(&frame, 0, whole, sizeof whole);
}

/* These 16 bytes, bare and in a frame, are refused with the number, or read as the header. */
static void read_both_ways(uint8_t wanted, const uint8_t *bytes, taqwelim_header header)
{
    taqwelim_receiver receiver = library_fresh_receiver();
    taqwelim_header found;
    taqwelim_open_answer came;
    taqwelim_apply_answer answer;
    set_bytes(&header_bytes, 0, bytes, 16);
    set_frame(bytes);
    expect(both_read(16, &found) == wanted, "a bare header with these reserved bits");
    expect(both_receive(&receiver, &came, &answer) == wanted, "a frame with these reserved bits");
    if (wanted)
        return;
    expect(same_header(found, header) && same_header(came.header, header), "the same header, whatever the reserved bits");
    expect(answer.packets == 1 && answer.listed == 3, "and the frame's packet");
}

/* The seven reserved bits are the sender's duty: every choice of them is read as the same header. With the check sum of
 * the ones all others are refused, and so is a field against its rule, whatever they are. */
static void reserved_bits(void)
{
    taqwelim_header header = {good_fields(), 7, TAQWELIM_KIND_DATA};
    uint8_t ours[16], bytes[16];
    model_header_bytes(header, ours);
    for (unsigned choice = 0; choice < 128; choice++) {
        memcpy(bytes, ours, sizeof bytes);
        with_reserved(bytes, choice);
        read_both_ways(choice == 127 ? 0 : TAQWELIM_REFUSED_HEADER_CRC, bytes, header);
        bytes[4] &= 0xFB; /* ACK-valid 0, and RXFN is not */
        model_seal_header(bytes);
        read_both_ways(TAQWELIM_REFUSED_FIELD_RULE, bytes, header);
        bytes[4] |= 0x04;
        model_seal_header(bytes);
        read_both_ways(TAQWELIM_NOT_REFUSED, bytes, header);
        expect(both_code(header, 16) == 0, "what was read may be coded");
        expect((memcmp(bytes_of(&header_bytes), bytes, 16) == 0) == (choice == 127), "coded again it is the same exactly where they were ones");
    }
}

/* What is just not refused: held parts that may go on or end a packet, and the longest list. */
static void receive_accepted(unsigned mark, size_t held, size_t left, size_t listed)
{
    taqwelim_receiver receiver = {held, 7, 1};
    taqwelim_open_answer opened;
    taqwelim_apply_answer answer;
    forge(TAQWELIM_KIND_DATA, area_of(mark), 0);
    expect(both_receive(&receiver, &opened, &answer) == 0, "the frame is not refused");
    expect(answer.receiver.held == left && answer.listed == listed, "what is held and listed then");
}

static void edges(void)
{
    receive_accepted(0x0772, 7093, 8999, 0); /* 1,906 bytes more */
    receive_refused(TAQWELIM_REFUSED_TOO_LONG, (taqwelim_receiver){7094, 7, 1}, 9000, 10907);
    receive_accepted(0x4002, 8998, 0, 9002);
    receive_refused(TAQWELIM_REFUSED_TOO_LONG, (taqwelim_receiver){8999, 7, 1}, 9000, 10907);
    receive_accepted(0x4002, 0, 0, 0); /* nothing is held: skipped */
    receive_accepted(0x8772, 8999, 1906, 0);
    uint8_t area[AREA] = {0x40, 0x01, 0xAB, 0xC7, 0x6F};
    taqwelim_receiver receiver = {8999, 7, 1};
    taqwelim_open_answer opened;
    taqwelim_apply_answer answer;
    forge(TAQWELIM_KIND_DATA, area, 0);
    expect(both_receive(&receiver, &opened, &answer) == 0, "the longest list is not refused");
    expect(answer.listed == 10907 && answer.packets == 2, "the longest list");
}

/* ---- entry: 16 */

static void entry_refused(size_t length, size_t position)
{
    taqwelim_entry_answer answer;
    keep();
    refused(both_entry(length, position, &answer), TAQWELIM_REFUSED_LIST_ENTRY, "entry is refused");
}

static void entry(void)
{
    set_bytes(&list, 0, (uint8_t[]){0, 1, 7, 0, 0, 1, 0x23, 0x29, 0, 3, 1, 1, 0}, 13);
    entry_refused(0, 1);
    entry_refused(3, 4);
    entry_refused(3, SIZE_MAX);
    entry_refused(10907, 3);  /* of 0 bytes */
    entry_refused(10907, 6);  /* of 9,001 bytes */
    entry_refused(12, 8);     /* 2 of 3 bytes */
    entry_refused(13, 12);    /* half a mark */
    entry_refused(2, 0);      /* a mark and no byte */
}

void try_received_refusals(void)
{
    read();
    one_after_the_other();
    reserved_bits();
    edges();
    entry();
}
