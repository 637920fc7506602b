/* The library's calls, each made on a stack of its own: what they take of it is measured (stack.c). */
#ifndef STACK_H
#define STACK_H

#include "../../include/taqwelim.h"

void paint_stacks(void); /* before the first call */
void try_stacks(void);   /* after the last: the header file's figures hold */

taqwelim_sender library_fresh_sender(void);
taqwelim_put_answer library_put(uint8_t *queue, size_t queue_length, taqwelim_sender sender, const uint8_t *packet, size_t packet_length);
taqwelim_waiting_answer library_waiting(const uint8_t *queue, size_t queue_length, taqwelim_sender sender);
taqwelim_next_answer library_next_frame(uint32_t taps, taqwelim_fields fields, taqwelim_sender sender, uint8_t *queue, size_t queue_length, uint8_t *out,
                                        size_t out_length);
taqwelim_receiver library_fresh_receiver(void);
taqwelim_open_answer library_open(uint32_t taps, const uint8_t *frame, size_t frame_length, uint8_t *area,
                                  size_t area_length);
taqwelim_repair_answer library_repair(uint32_t taps, const uint8_t *part, size_t part_length, uint8_t *scratch,
                                      size_t scratch_length);
taqwelim_apply_answer library_apply(taqwelim_header header, const uint8_t *area, size_t area_length,
                                    taqwelim_receiver receiver, uint8_t *hold, size_t hold_length, uint8_t *list,
                                    size_t list_length);
taqwelim_entry_answer library_entry(const uint8_t *list, size_t list_length, size_t position);
taqwelim_place library_packet(const uint8_t *list, size_t list_length, size_t position);
taqwelim_code_answer library_code_header(taqwelim_header header, uint8_t *out, size_t out_length);
taqwelim_read_answer library_read_header(const uint8_t *bytes, size_t length);
int32_t library_level(uint8_t code);

#endif
