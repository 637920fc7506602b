/* The peer's codes: Reed-Solomon by libfec, check sums by tables of 256, the scrambler bit by bit. */
#include "peer.h"

#include <fec.h>
#include <string.h>

static const uint8_t preamble[9] = {0x77, 0xAD, 0x5B, 0x58, 0x43, 0x64, 0x1E, 0x2E, 0x26};
static void *payload_code, *header_code;
static uint16_t table_16[256];
static uint32_t table_32[256];

void peer_start(void)
{
    payload_code = init_rs_char(8, 0x187, 120, 11, 16, 0);
    header_code = init_rs_char(8, 0x187, 120, 11, 16, 223);
    for (unsigned byte = 0; byte < 256; byte++) {
        uint16_t low = (uint16_t)(byte << 8);
        uint32_t high = (uint32_t)byte << 24;
        for (int bit = 0; bit < 8; bit++) {
            low = (uint16_t)(low << 1 ^ (low & 0x8000 ? 0x1021 : 0));
            high = high << 1 ^ (high & 0x80000000 ? 0x04C11DB7 : 0);
        }
        table_16[byte] = low;
        table_32[byte] = high;
    }
}

static uint16_t crc_16(const uint8_t *bytes, size_t count)
{
    uint16_t sum = 0;
    for (size_t i = 0; i < count; i++)
        sum = (uint16_t)(sum << 8 ^ table_16[sum >> 8 ^ bytes[i]]);
    return sum;
}

uint32_t peer_crc_32(const uint8_t *bytes, size_t count)
{
    uint32_t sum = 0;
    for (size_t i = 0; i < count; i++)
        sum = sum << 8 ^ table_32[sum >> 24 ^ bytes[i]];
    return sum;
}

/* Bit i of the stages is s(k + i); s0 to s2 are 1. */
void peer_scramble(uint32_t taps, uint8_t *bytes, size_t count)
{
    uint32_t stages = 7;
    for (size_t i = 0; i < count; i++) {
        uint8_t key = 0;
        for (int bit = 0; bit < 8; bit++) {
            key = (uint8_t)(key << 1 | (stages & 1));
            stages = stages >> 1 | (uint32_t)__builtin_parity(stages & taps) << 24;
        }
        bytes[i] ^= key;
    }
}

void peer_write_parity(uint8_t payload[PAYLOAD])
{
    for (int word = 0; word < 8; word++) {
        uint8_t data[239], parity[16];
        for (int i = 0; i < 239; i++)
            data[i] = payload[8 * i + word];
        encode_rs_char(payload_code, data, parity);
        for (int i = 0; i < 16; i++)
            payload[1912 + 8 * i + word] = parity[i];
    }
}

int peer_repair_word(uint8_t word[255])
{
    return decode_rs_char(payload_code, word, NULL, 0);
}

int peer_repair_words(uint8_t payload[PAYLOAD])
{
    int all = 0;
    for (int word = 0; word < 8; word++) {
        uint8_t bytes[255];
        for (int i = 0; i < 255; i++)
            bytes[i] = payload[8 * i + word];
        int wrong = peer_repair_word(bytes);
        if (wrong < 0)
            return -1;
        for (int i = 0; wrong > 0 && i < 255; i++)
            payload[8 * i + word] = bytes[i];
        all += wrong;
    }
    return all;
}

/* Below 0 also where the codeword that is near has another value in a byte that is not sent. */
static int repair_header(uint8_t header[32])
{
    return decode_rs_char(header_code, header, NULL, 0);
}

void peer_build(uint32_t taps, const uint8_t header[14], const uint8_t area[AREA], uint8_t frame[FRAME])
{
    uint8_t *coded = frame + 9, *payload = frame + 41;
    memcpy(frame, preamble, 9);
    memcpy(coded, header, 14);
    uint16_t low = crc_16(header, 14);
    coded[14] = (uint8_t)(low >> 8);
    coded[15] = (uint8_t)low;
    encode_rs_char(header_code, coded, coded + 16);
    memcpy(payload, area, AREA);
    uint32_t sum = peer_crc_32(area, AREA);
    for (int i = 0; i < 4; i++)
        payload[AREA + i] = (uint8_t)(sum >> (24 - 8 * i));
    peer_write_parity(payload);
    peer_scramble(taps, coded, 2072);
}

/* Whether the fields keep their rules (11). */
int peer_field_refusal(const uint8_t header[14])
{
    int opcode = header[11] & 15, fast = header[12] | header[13] << 8;
    if (!(header[4] & 4) && (header[2] | header[3]) != 0)
        return 11;
    if ((opcode == 1 || opcode == 3) && (fast & 3) > 1)
        return 11;
    return (opcode >= 7 && opcode <= 14 && fast != 0) || (opcode == 15 && fast != 0xFFFF) ? 11 : 0;
}

int peer_open(uint32_t taps, const uint8_t *frame, size_t frame_length, uint8_t header[14], uint8_t *area,
              size_t area_length)
{
    uint8_t body[2072];
    if (taps >> 25 || !(taps & 1))
        return 1;
    if (frame_length != FRAME || area_length < AREA)
        return 2;
    if (memcmp(frame, preamble, 9) != 0)
        return 7;
    memcpy(body, frame + 9, 2072);
    peer_scramble(taps, body, 2072);
    if (repair_header(body) < 0)
        return 8;
    if (crc_16(body, 14) != (body[14] << 8 | body[15]))
        return 9;
    if (peer_field_refusal(body))
        return 11;
    uint8_t *payload = body + 32;
    if (peer_repair_words(payload) < 0)
        return 12;
    uint32_t sum = (uint32_t)payload[AREA] << 24 | (uint32_t)payload[AREA + 1] << 16 | (uint32_t)payload[AREA + 2] << 8 | payload[AREA + 3];
    if (peer_crc_32(payload, AREA) != sum)
        return 13;
    memcpy(header, body, 14);
    memcpy(area, payload, AREA);
    return 0;
}

int peer_repair(uint32_t taps, const uint8_t *part, size_t part_length, uint8_t *scratch, size_t scratch_length)
{
    uint8_t body[2072];
    if (taps >> 25 || !(taps & 1))
        return 1;
    if (part_length != 2072 || scratch_length < 2072)
        return 2;
    memcpy(body, part, 2072);
    peer_scramble(taps, body, 2072);
    int header = repair_header(body);
    if (header < 0)
        return 8;
    int words = peer_repair_words(body + 32);
    if (words < 0)
        return 12;
    if (header + words == 0)
        return 0;
    peer_scramble(taps, body, 2072);
    memcpy(scratch, body, 2072);
    return 0;
}
