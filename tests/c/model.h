/* A plain model of every call, written from the papers and sharing nothing with the library but the header's types: each
 * call does to its buffers and answers what the call of the same name should. It goes bit by bit where the papers do. */
#ifndef MODEL_H
#define MODEL_H

#include "../../include/taqwelim.h"

#define AREA TAQWELIM_AREA_SIZE
#define DATA (AREA + 4) /* an area with its CRC-32 behind it */
#define PART TAQWELIM_PART_SIZE
#define CODED_HEADER 32 /* the first bytes of a part */
#define WORD 255        /* bytes of a codeword */
#define UNSENT 223      /* of the header's, which are zeros in front of it */
#define RECORD_FIRST 0x8000
#define RECORD_LAST 0x4000

/* ---- codes (model_codes.c) */
uint32_t model_crc(int bits, uint32_t polynomial, const uint8_t *bytes, size_t length);
uint16_t model_crc_16(const uint8_t *bytes, size_t length);
uint32_t model_crc_32(const uint8_t *bytes, size_t length);
uint8_t model_power(unsigned exponent);
uint8_t model_product(uint8_t a, uint8_t b);
uint8_t model_quotient(uint8_t a, uint8_t b);
uint8_t model_root(int j);
const uint8_t *model_generator(void);
void model_parity(const uint8_t *data, size_t length, size_t step, uint8_t *parity);
int model_is_codeword(const uint8_t *data, size_t length, const uint8_t *parity, size_t step);
void model_scramble(uint32_t taps, uint8_t *bytes, size_t length);
int model_taps_allowed(uint32_t taps);

/* ---- repair (model_repair.c): whether a codeword is that near; where one is, it is written in place of what came */
int model_repair_header(uint8_t *header);
int model_repair_payload(uint8_t *payload);
size_t model_differences(const uint8_t *a, const uint8_t *b, size_t length);

/* ---- headers and frames (model_frames.c) */
int model_fields_fit(taqwelim_fields fields);
int model_header_fits(taqwelim_header header);
void model_header_bytes(taqwelim_header header, uint8_t *bytes);
uint8_t model_header_refusal(const uint8_t *bytes);
taqwelim_header model_header_of(const uint8_t *bytes);
void model_seal_header(uint8_t *bytes);
void model_frame(uint32_t taps, const uint8_t *header, const uint8_t *data, uint8_t *frame);
void model_data(const uint8_t *area, uint8_t *data);

/* ---- parts of the calls (model_link.c) */
void model_put_mark(uint8_t *bytes, unsigned mark);
size_t model_count(const uint8_t *laid, size_t used);
size_t model_fill(uint8_t *area, uint8_t *laid, size_t used);
void model_write_round(uint8_t *queue, size_t start, const uint8_t *bytes, size_t length);

/* ---- the calls (model_link.c, and open and repair in model_frames.c) */
taqwelim_put_answer model_put(uint8_t *queue, size_t queue_length, taqwelim_sender sender, const uint8_t *packet, size_t packet_length);
taqwelim_waiting_answer model_waiting(const uint8_t *queue, size_t queue_length, taqwelim_sender sender);
taqwelim_next_answer model_next_frame(uint32_t taps, taqwelim_fields fields, taqwelim_sender sender, uint8_t *queue, size_t queue_length, uint8_t *out,
                                      size_t out_length);
taqwelim_open_answer model_open(uint32_t taps, const uint8_t *frame, size_t frame_length, uint8_t *area,
                                size_t area_length);
taqwelim_repair_answer model_repair(uint32_t taps, const uint8_t *part, size_t part_length, uint8_t *scratch,
                                    size_t scratch_length);
taqwelim_apply_answer model_apply(taqwelim_header header, const uint8_t *area, size_t area_length,
                                  taqwelim_receiver receiver, uint8_t *hold, size_t hold_length, uint8_t *list,
                                  size_t list_length);
taqwelim_entry_answer model_entry(const uint8_t *list, size_t list_length, size_t position);
taqwelim_code_answer model_code_header(taqwelim_header header, uint8_t *out, size_t out_length);
taqwelim_read_answer model_read_header(const uint8_t *bytes, size_t length);

#endif
