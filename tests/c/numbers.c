/* The numbers to try of paper 01, through the calls. Those of the codes, which no call shows alone, are tried on the
 * model, and on the library by whole frames. */
#include "both.h"

#include <string.h>

static const uint32_t taps = TAQWELIM_TAPS_0_AND_3;

static taqwelim_fields absent_fields(void)
{
    taqwelim_fields fields = TAQWELIM_FIELDS_WITHOUT_MESSAGE;
    return fields;
}

static void codes(void)
{
    const uint8_t one = 1;
    expect(model_crc_16(&one, 1) == 0x1021 && model_crc_16(&one, 0) == 0, "CRC-16 of 01 and of nothing");
    expect(model_crc_32(&one, 1) == 0x04C11DB7 && model_crc_32(&one, 0) == 0, "CRC-32 of 01 and of nothing");
    expect(model_power(8) == 0x87 && model_power(9) == 0x89 && model_power(254) == 0xC3, "powers 8, 9 and 254");
    expect(library_level(255) == -6396930 && library_level(0) == 0, "the level of codes 255 and 0");
    for (int code = 0; code < 256; code++)
        expect(library_level((uint8_t)code) == -25086 * code, "a level");
}

/* The two headers of the paper: d0 to d13, and what is read back. */
static void headers(void)
{
    static const uint8_t idle[14] = {0x01, 0, 0, 0, 0xF0, 0, 0, 0, 0, 0, 0xC0, 0x8F, 0xFF, 0xFF};
    static const uint8_t version[14] = {0x34, 0x12, 0xFF, 0xFF, 0xFD, 0x01, 0, 0, 0, 0, 0xFB, 0xB5, 0x42, 0x10};
    taqwelim_header h = {absent_fields(), 1, TAQWELIM_KIND_IDLE}, back;
    expect(both_code(h, 16) == 0 && memcmp(bytes_of(&header_bytes), idle, 14) == 0, "the paper's IDLE header");
    expect(both_read(16, &back) == 0 && back.txfn == 1 && back.fields.message.opcode == 15, "the IDLE header read back");
    taqwelim_fields fields = {1, 0xFFFF, 1, 1, 59, 3, {TAQWELIM_OPCODE_VERSION, 2, 1, 2}};
    taqwelim_header data = {fields, 0x1234, TAQWELIM_KIND_DATA};
    expect(both_code(data, 16) == 0 && memcmp(bytes_of(&header_bytes), version, 14) == 0, "the paper's DATA header");
    expect(both_read(16, &back) == 0 && back.txfn == 0x1234 && back.fields.message.third == 2, "the DATA header read back");
}

/* The area of the frame in out, opened by the model. */
static const uint8_t *area_sent(uint32_t with)
{
    static uint8_t area[AREA];
    taqwelim_open_answer opened = model_open(with, bytes_of(&out), TAQWELIM_FRAME_SIZE, area, sizeof area);
    expect(opened.refusal == 0, "a frame that was sent is opened");
    return area;
}

/* The first four bytes behind the preamble are those of the header with the scrambler's added. */
static void scrambler(void)
{
    static const uint32_t both[2] = {9, 3};
    static const uint8_t fourth[2] = {0x70, 0x10};
    for (int i = 0; i < 2; i++) {
        taqwelim_sender sender = library_fresh_sender();
        const uint8_t *body = bytes_of(&out) + 9;
        int ones = 0;
        expect(both_next(both[i], absent_fields(), &sender, TAQWELIM_QUEUE_SIZE, TAQWELIM_FRAME_SIZE) == 0, "an IDLE frame");
        expect(body[0] == 0xE0 && body[1] == 0 && body[2] == 0 && body[3] == fourth[i], "the scrambler's bytes 0 to 3");
        for (int bit = 0; bit < 72; bit++)
            ones += bytes_of(&out)[bit / 8] >> bit % 8 & 1;
        expect(ones == 36, "the one bits of the preamble");
    }
}

static void put_all(taqwelim_sender *sender, const size_t *lengths)
{
    for (; *lengths; lengths++)
        expect(both_put(TAQWELIM_QUEUE_SIZE, sender, *lengths) == 0, "a packet is put");
}

static unsigned mark(const uint8_t *area, size_t at)
{
    return (unsigned)area[at] << 8 | area[at + 1];
}

static const uint8_t *next_area(taqwelim_sender *sender)
{
    expect(both_next(taps, absent_fields(), sender, TAQWELIM_QUEUE_SIZE, TAQWELIM_FRAME_SIZE) == 0, "a frame is built");
    return area_sent(taps);
}

static int zeros_from(const uint8_t *area, size_t at)
{
    while (at < AREA && area[at] == 0)
        at++;
    return at == AREA;
}

/* The packing's numbers, wherever the ring begins. */
static void packing(size_t start)
{
    taqwelim_sender s = {start, 0, 0};
    const uint8_t *area;
    set_byte(&packet, 0, 0xAA);
    put_all(&s, (size_t[]){1, 0});
    area = next_area(&s);
    expect(mark(area, 0) == 0xC001 && area[2] == 0xAA && zeros_from(area, 3), "packet AA");
    put_all(&s, (size_t[]){1906, 0});
    expect(mark(next_area(&s), 0) == 0xC772 && s.used == 0, "1,906 bytes");
    put_all(&s, (size_t[]){1907, 0});
    expect(mark(next_area(&s), 0) == 0x8772, "1,907 bytes, first frame");
    expect(mark(next_area(&s), 0) == 0x4001 && s.used == 0, "1,907 bytes, second frame");
    put_all(&s, (size_t[]){9000, 0});
    for (int i = 0; i < 4; i++)
        next_area(&s);
    expect_waiting(s, 1, 0x560);
    expect(mark(next_area(&s), 0) == 0x4560 && s.used == 0, "9,000 bytes, fifth frame");
    put_all(&s, (size_t[]){1903, 1, 0});
    area = next_area(&s);
    expect(mark(area, 0) == 0xC76F && mark(area, 1905) == 0xC001 && s.used == 0, "1,903 bytes, then 1");
    put_all(&s, (size_t[]){1903, 2, 0});
    expect(mark(next_area(&s), 1905) == 0x8001 && s.used == 3, "1,903 bytes, then 2");
    expect(mark(next_area(&s), 0) == 0x4001, "the second of the 2");
    put_all(&s, (size_t[]){1904, 1, 0});
    area = next_area(&s);
    expect(mark(area, 1906) == 0 && s.used == 3, "1,904 bytes, then 1");
    expect(mark(next_area(&s), 0) == 0xC001 && s.used == 0, "the 1 that waited");
    expect(s.start == (start + 18548) % TAQWELIM_QUEUE_SIZE, "the start moved by all that was put");
}

static void filling(size_t start)
{
    taqwelim_sender s = {start, 0, 0}, full;
    put_all(&s, (size_t[]){9000, 9000, 9000, 0});
    expect(s.used == 27006, "three packets of 9,000 use 27,006");
    expect_waiting(s, 3, 27000);
    expect(both_put(TAQWELIM_QUEUE_SIZE, &s, 5761) == TAQWELIM_REFUSED_FULL && s.used == 27006, "a fourth of 5,761");
    full = s;
    expect(both_put(TAQWELIM_QUEUE_SIZE, &full, 5760) == 0 && full.used == 32768, "a fourth of 5,760");
}

/* The frame that was sent arrives. */
static void receive_sent(taqwelim_receiver *receiver, taqwelim_header *header, taqwelim_apply_answer *answer)
{
    taqwelim_open_answer opened;
    set_bytes(&frame, 0, bytes_of(&out), TAQWELIM_FRAME_SIZE);
    expect(both_receive(receiver, &opened, answer) == 0 && opened.repaired == 0, "a frame that was sent is received");
    *header = opened.header;
}

static void receiving(void)
{
    taqwelim_sender s = library_fresh_sender();
    taqwelim_receiver r = library_fresh_receiver();
    taqwelim_header header;
    taqwelim_apply_answer answer;
    taqwelim_entry_answer entry;
    expect(s.start == 0 && s.used == 0 && s.next == 0 && r.held == 0 && r.expects == 0 && r.expected == 0, "fresh states are zeros");
    next_area(&s);
    receive_sent(&r, &header, &answer);
    expect(header.txfn == 0 && header.kind == TAQWELIM_KIND_IDLE, "the example's first frame: 0 idle");
    expect(answer.missed == 0 && answer.packets == 0, "the example's first frame: 0 0");
    set_byte(&packet, 0, 0xAA);
    put_all(&s, (size_t[]){1, 0});
    next_area(&s);
    receive_sent(&r, &header, &answer);
    expect(header.txfn == 1 && header.kind == TAQWELIM_KIND_DATA, "the example's second frame: 1 data");
    expect(answer.missed == 0 && answer.packets == 1, "the example's second frame: 0 1");
    expect(both_entry(answer.listed, 0, &entry) == 0 && entry.found && entry.length == 1 && bytes_of(&list)[entry.start] == 0xAA, "the packet AA");
    expect(both_entry(answer.listed, entry.next, &entry) == 0 && !entry.found, "the end of the list");
    s.next = 65535;
    next_area(&s);
    expect(s.next == 0, "65,535 is followed by 0");
    r = (taqwelim_receiver){0, 0, 1};
    receive_sent(&r, &header, &answer);
    expect(answer.missed == 65535, "expected 0, arrived 65,535");
}

void try_numbers(void)
{
    static const size_t starts[] = {0, 1, 20001, 30861, 32767};
    fill_all();
    codes();
    headers();
    scrambler();
    for (size_t i = 0; i < sizeof starts / sizeof starts[0]; i++) {
        packing(starts[i]);
        filling(starts[i]);
    }
    receiving();
}
