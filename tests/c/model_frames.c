/* The model's headers and frames, both ways (paper 01, "The frame on the wire"; paper 02, M-100, M-101 and M-106). */
#include "model.h"

#include <string.h>

static const uint8_t preamble[9] = {0x77, 0xAD, 0x5B, 0x58, 0x43, 0x64, 0x1E, 0x2E, 0x26};

/* ---- headers */

/* One line for each of the nine messages: the bits of its numbers, from the top of the payload down. */
static const int number_bits[16][3] = {
    {16, 0, 0}, {14, 2, 0}, {8, 8, 0}, {14, 2, 0}, {8, 8, 0}, {5, 5, 6}, {16, 0, 0},
};

static int has_lock(unsigned opcode)
{
    return opcode == 1 || opcode == 3;
}

static int message_fits(taqwelim_message m)
{
    if (m.opcode > 15)
        return 0;
    const int *bits = number_bits[m.opcode];
    if (has_lock(m.opcode) && m.second > 1)
        return 0;
    return m.first >> bits[0] == 0 && m.second >> bits[1] == 0 && m.third >> bits[2] == 0;
}

int model_fields_fit(taqwelim_fields f)
{
    return f.ack <= 1 && f.valid <= 1 && (f.valid || f.rxfn == 0) && f.stamp >> 40 == 0 && f.seconds < 64 && f.applies < 8 && message_fits(f.message);
}

/* Whether some frame has this header: no other can be coded, and opening gives no other. */
int model_header_fits(taqwelim_header h)
{
    return h.kind <= 3 && model_fields_fit(h.fields);
}

static unsigned payload_of(taqwelim_message m)
{
    const int *bits = number_bits[m.opcode];
    if (m.opcode == 15)
        return 0xFFFF;
    return (unsigned)m.first << (16 - bits[0]) % 16 | (unsigned)m.second << bits[2] | m.third;
}

static taqwelim_message message_of(unsigned opcode, unsigned payload)
{
    taqwelim_message m = {0};
    const int *bits = number_bits[opcode];
    m.opcode = (uint8_t)opcode;
    if (opcode > 6)
        return m;
    m.first = (uint16_t)(payload >> (16 - bits[0]));
    m.second = (uint16_t)(payload >> bits[2] & ((1u << bits[1]) - 1));
    m.third = (uint16_t)(payload & ((1u << bits[2]) - 1));
    return m;
}

/* The CRC-16 of d0 to d13 in d14 and d15, high byte first. */
void model_seal_header(uint8_t *d)
{
    uint16_t sum = model_crc_16(d, 14);
    d[14] = (uint8_t)(sum >> 8);
    d[15] = (uint8_t)sum;
}

/* The 16 bytes of a header whose fields fit. */
void model_header_bytes(taqwelim_header h, uint8_t *d)
{
    taqwelim_fields f = h.fields;
    unsigned payload = payload_of(f.message);
    d[0] = (uint8_t)h.txfn;
    d[1] = (uint8_t)(h.txfn >> 8);
    d[2] = (uint8_t)f.rxfn;
    d[3] = (uint8_t)(f.rxfn >> 8);
    d[4] = (uint8_t)(0xF0 | f.ack << 3 | f.valid << 2 | h.kind);
    for (int i = 0; i < 5; i++)
        d[5 + i] = (uint8_t)(f.stamp >> 8 * i);
    d[10] = (uint8_t)(0xC0 | f.seconds);
    d[11] = (uint8_t)(0x80 | f.applies << 4 | f.message.opcode);
    d[12] = (uint8_t)payload;
    d[13] = (uint8_t)(payload >> 8);
    model_seal_header(d);
}

uint8_t model_header_refusal(const uint8_t *d)
{
    unsigned opcode = d[11] & 15, payload = d[12] | (unsigned)d[13] << 8;
    if (model_crc_16(d, 16))
        return 9;
    if (!(d[4] & 4) && (d[2] || d[3]))
        return 11;
    if (has_lock(opcode) && payload % 4 > 1)
        return 11;
    if ((opcode >= 7 && opcode <= 14 && payload != 0) || (opcode == 15 && payload != 0xFFFF))
        return 11;
    return 0;
}

taqwelim_header model_header_of(const uint8_t *d)
{
    taqwelim_header h = {0};
    h.txfn = (uint16_t)(d[0] | d[1] << 8);
    h.kind = d[4] & 3;
    h.fields.rxfn = (uint16_t)(d[2] | d[3] << 8);
    h.fields.ack = d[4] >> 3 & 1;
    h.fields.valid = d[4] >> 2 & 1;
    for (int i = 0; i < 5; i++)
        h.fields.stamp |= (uint64_t)d[5 + i] << 8 * i;
    h.fields.seconds = d[10] & 63;
    h.fields.applies = d[11] >> 4 & 7;
    h.fields.message = message_of(d[11] & 15, d[12] | (unsigned)d[13] << 8);
    return h;
}

/* ---- frames */

/* The area with its CRC-32 behind it, high byte first. */
void model_data(const uint8_t *area, uint8_t *data)
{
    uint32_t sum = model_crc_32(area, AREA);
    memcpy(data, area, AREA);
    for (int i = 0; i < 4; i++)
        data[AREA + i] = (uint8_t)(sum >> (24 - 8 * i));
}

/* A frame of any 16 bytes of header and any 1,912 of data: both coded, all scrambled. */
void model_frame(uint32_t taps, const uint8_t *header, const uint8_t *data, uint8_t *frame)
{
    uint8_t *body = frame + 9, *payload = body + 32;
    memcpy(frame, preamble, 9);
    memcpy(body, header, 16);
    model_parity(body, 16, 1, body + 16);
    memcpy(payload, data, DATA);
    for (size_t word = 0; word < 8; word++)
        model_parity(payload + word, DATA / 8, 8, payload + DATA + word);
    model_scramble(taps, body, PART);
}

/* 8, 9 and 11 to 13, of what is behind a preamble without the scrambler's bits, which is repaired on the way; 0 for none. */
static uint8_t body_refusal(uint8_t *body)
{
    uint8_t *payload = body + CODED_HEADER, refusal;
    if (!model_repair_header(body))
        return 8;
    refusal = model_header_refusal(body);
    if (refusal)
        return refusal;
    if (!model_repair_payload(payload))
        return 12;
    return model_crc_32(payload, DATA) ? 13 : 0;
}

taqwelim_open_answer model_open(uint32_t taps, const uint8_t *frame, size_t frame_length, uint8_t *area,
                                size_t area_length)
{
    taqwelim_open_answer answer = {0};
    uint8_t came[PART], body[PART];
    if (!model_taps_allowed(taps))
        answer.refusal = 1;
    else if (frame_length != TAQWELIM_FRAME_SIZE || area_length < AREA)
        answer.refusal = 2;
    else if (memcmp(frame, preamble, 9))
        answer.refusal = 7;
    if (answer.refusal)
        return answer;
    memcpy(came, frame + 9, PART);
    model_scramble(taps, came, PART);
    memcpy(body, came, PART);
    answer.refusal = body_refusal(body);
    if (answer.refusal)
        return answer;
    answer.header = model_header_of(body);
    answer.repaired = (uint8_t)model_differences(came, body, PART);
    memcpy(area, body + CODED_HEADER, AREA);
    return answer;
}

taqwelim_repair_answer model_repair(uint32_t taps, const uint8_t *part, size_t part_length, uint8_t *scratch,
                                    size_t scratch_length)
{
    taqwelim_repair_answer answer = {0};
    uint8_t body[PART];
    if (!model_taps_allowed(taps))
        answer.refusal = 1;
    else if (part_length != PART || scratch_length < PART)
        answer.refusal = 2;
    if (answer.refusal)
        return answer;
    memcpy(body, part, PART);
    model_scramble(taps, body, PART);
    if (!model_repair_header(body))
        answer.refusal = 8;
    else if (!model_repair_payload(body + CODED_HEADER))
        answer.refusal = 12;
    if (answer.refusal)
        return answer;
    model_scramble(taps, body, PART);
    answer.repaired = (uint8_t)model_differences(part, body, PART);
    if (answer.repaired)
        memcpy(scratch, body, PART);
    return answer;
}
