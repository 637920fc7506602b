/* Taqwelim: packets through the frames of a laser link, for C and C++.
 *
 * The library is proved: every call here is one call of a proved library, and has a contract that says what it does
 * for all inputs (docs/CONTRACTS.md). It allocates nothing, keeps nothing between calls, and needs memcpy, memmove and
 * memset of the C library only. `tests/archive` writes it, for x86-64 Linux:
 *
 *     cc -std=c99 -Iinclude yours.c target/staticlib/libtaqwelim.a
 *
 * How to use it
 *   A state is a small struct, given by value and handed back in the answer. Packets, frames, areas and lists are bytes
 *   that you lend for the time of the call: a pointer, then the length.
 *
 *     uint8_t queue[TAQWELIM_QUEUE_SIZE], frame[TAQWELIM_FRAME_SIZE];
 *     taqwelim_sender sender = taqwelim_fresh_sender();
 *     taqwelim_fields fields = TAQWELIM_FIELDS_WITHOUT_MESSAGE;
 *
 *     taqwelim_put_answer put = taqwelim_put(queue, sizeof queue, sender, packet, packet_length);
 *     sender = put.sender;
 *     taqwelim_next_answer next = taqwelim_next_frame(TAQWELIM_TAPS_0_AND_3, fields, sender, queue, sizeof queue,
 *                                                     frame, sizeof frame);
 *     sender = next.sender;
 *
 *   At the far end, where the frame arrives:
 *
 *     uint8_t area[TAQWELIM_AREA_SIZE], hold[TAQWELIM_HOLD_SIZE], list[TAQWELIM_LIST_MIN];
 *     taqwelim_receiver receiver = taqwelim_fresh_receiver();
 *
 *     taqwelim_open_answer opened = taqwelim_open(TAQWELIM_TAPS_0_AND_3, frame, sizeof frame, area, sizeof area);
 *     if (!opened.refusal) {
 *         taqwelim_apply_answer applied = taqwelim_apply(opened.header, area, sizeof area, receiver,
 *                                                        hold, sizeof hold, list, sizeof list);
 *         receiver = applied.receiver;
 *     }
 *
 *   examples/session.c is a whole program with both ends, and examples/session.cpp is the same in C++.
 *
 * Refusals
 *   Every answer has a refusal's number, 0 for none. A refused call changes no byte that you lent, and hands back the
 *   state that you gave; every other number of its answer is 0. Each call below lists the numbers that it may give, and
 *   says when; it gives no other. Where several apply, the first in the order that the call lists is given.
 *
 * What you owe
 *   A pointer with a length above 0 points to that many bytes, which nobody else reads or writes during the call; bytes
 *   that a call may write (`uint8_t *`) overlap no other bytes of the same call. A null pointer is allowed where the
 *   length is 0. The stack has room for the call (TAQWELIM_STACK_.., below). That is all: no number, state or byte that
 *   you give makes a call undefined. Calls on bytes that do not overlap may run at the same time. */
#ifndef TAQWELIM_H
#define TAQWELIM_H

#include <stddef.h>
#include <stdint.h>

/* ---- the library's version, which stands here alone; the text is "MAJOR.MINOR.PATCH" */
#define TAQWELIM_VERSION_MAJOR 0
#define TAQWELIM_VERSION_MINOR 4
#define TAQWELIM_VERSION_PATCH 0
#define TAQWELIM_VERSION TAQWELIM_VERSION_TEXT(TAQWELIM_VERSION_MAJOR, TAQWELIM_VERSION_MINOR, TAQWELIM_VERSION_PATCH)
#define TAQWELIM_VERSION_TEXT(major, minor, patch) TAQWELIM_VERSION_TEXT_OF(major, minor, patch)
#define TAQWELIM_VERSION_TEXT_OF(major, minor, patch) #major "." #minor "." #patch

/* ---- sizes, in bytes; MIN and MAX are bounds, a SIZE is exact */
#define TAQWELIM_PACKET_MIN 1
#define TAQWELIM_PACKET_MAX 9000
#define TAQWELIM_FRAME_SIZE 2081  /* a frame on the wire; what next_frame writes it to may be longer */
#define TAQWELIM_PREAMBLE_SIZE 9  /* the preamble that a frame begins with */
#define TAQWELIM_PART_SIZE 2072   /* the part of a frame after it; the scratch that repair writes it to may be longer */
#define TAQWELIM_AREA_SIZE 1908   /* the data area of a frame; what open writes it to may be longer */
#define TAQWELIM_HEADER_SIZE 16   /* a bare header */
#define TAQWELIM_QUEUE_SIZE 32768 /* what is lent for the packets that wait */
#define TAQWELIM_HOLD_SIZE 9000   /* what is lent for the begun part of a packet */
#define TAQWELIM_LIST_MIN 10907   /* what is lent for the packets received: a frame never gives more */

/* ---- stack, in bytes: the most that a call takes of it, with its arguments and its answer. tests/run measures every
 *      call that it makes, and fails where one takes more. What a dynamic linker takes that binds memcpy at its first
 *      call is not in it. */
#define TAQWELIM_STACK_NEXT_FRAME 10240
#define TAQWELIM_STACK_OPEN 12288
#define TAQWELIM_STACK_REPAIR 12288
#define TAQWELIM_STACK_OTHERS 512 /* every other call */
#define TAQWELIM_STACK_MAX 12288  /* every call */

/* ---- taps: bit i is tap i; below 2^25, with tap 0 set */
#define TAQWELIM_TAPS_0_AND_3 UINT32_C(9)

/* ---- a refusal's number, and when it is given; 10 is empty: it was "a reserved bit is 0" up to version 0.1.0, and is
 *      never given again */
enum taqwelim_refusal {
    TAQWELIM_NOT_REFUSED = 0,
    TAQWELIM_REFUSED_TAPS = 1,          /* taps at or above 2^25, or tap 0 clear */
    TAQWELIM_REFUSED_LENGTH = 2,        /* a frame or its part, an area, a bare header or a buffer of a wrong length */
    TAQWELIM_REFUSED_STATE = 3,         /* the queue is not whole with this state, or these are no receiver's numbers */
    TAQWELIM_REFUSED_PACKET = 4,        /* a packet of 0 or above 9,000 bytes */
    TAQWELIM_REFUSED_FULL = 5,          /* no room in the queue: used + 2 + length is above 32,768 */
    TAQWELIM_REFUSED_FIELD = 6,         /* a field to send is too large for its bits or against its rule */
    TAQWELIM_REFUSED_PREAMBLE = 7,      /* the preamble differs */
    TAQWELIM_REFUSED_HEADER_CODE = 8,   /* no codeword within 8 byte differences of the coded header */
    TAQWELIM_REFUSED_HEADER_CRC = 9,    /* the CRC-16 differs */
    TAQWELIM_REFUSED_FIELD_RULE = 11,   /* a received field is against its rule, or no opening gives this header */
    TAQWELIM_REFUSED_PAYLOAD_CODE = 12, /* no codeword within 8 byte differences of one of the eight payload words */
    TAQWELIM_REFUSED_PAYLOAD_CRC = 13,  /* the CRC-32 differs */
    TAQWELIM_REFUSED_PACKING = 14,      /* a DATA area against the packing rules */
    TAQWELIM_REFUSED_TOO_LONG = 15,     /* a held part and the record that continues it pass a packet's length */
    TAQWELIM_REFUSED_LIST_ENTRY = 16    /* a position past the list's end, or no entry stands there */
};

/* ---- the kind of a frame; of one that is not DATA, apply does not look into the area */
enum taqwelim_kind {
    TAQWELIM_KIND_IDLE = 0,
    TAQWELIM_KIND_DATA = 1,
    TAQWELIM_KIND_TYPE2 = 2,
    TAQWELIM_KIND_TYPE3 = 3
};

/* ---- the opcodes of the fast channel, each with the numbers that its message has (first, second, third) and their
 *      greatest values; 7 to 14 are reserved, and have none */
enum taqwelim_opcode {
    TAQWELIM_OPCODE_CRC_ERRORS = 0,       /* errors 65535 */
    TAQWELIM_OPCODE_RECEIVED_POWER = 1,   /* power 16383, lock 1 */
    TAQWELIM_OPCODE_POWER_STATISTICS = 2, /* mean 255, deviation 255 */
    TAQWELIM_OPCODE_SYNC_LOSSES = 3,      /* losses 16383, lock 1 */
    TAQWELIM_OPCODE_POWER_RANGE = 4,      /* least 255, greatest 255 */
    TAQWELIM_OPCODE_VERSION = 5,          /* major 31, minor 31, patch 63 */
    TAQWELIM_OPCODE_CORRECTED_FRAMES = 6, /* frames 65535 */
    TAQWELIM_OPCODE_ABSENT = 15           /* none */
};

/* A message of the fast channel. A number that the message does not have is 0, or it is refused (6, by apply 11). */
typedef struct taqwelim_message {
    uint8_t opcode; /* 0 to 15 */
    uint16_t first;
    uint16_t second;
    uint16_t third;
} taqwelim_message;

/* The fields of a header that a caller gives for a frame. */
typedef struct taqwelim_fields {
    uint64_t stamp;  /* TX_TS, below 2^40 */
    uint16_t rxfn;   /* RXFN, the far end's count; 0 where valid is 0 */
    uint8_t ack;     /* ACK, 0 or 1 */
    uint8_t valid;   /* ACK-valid, 0 or 1 */
    uint8_t seconds; /* TOD_SECONDS, 0 to 63 */
    uint8_t applies; /* TS-applies, 0 to 7 */
    taqwelim_message message;
} taqwelim_fields;

/* Fields to begin with: no message, and zeros. */
#define TAQWELIM_FIELDS_WITHOUT_MESSAGE {0, 0, 0, 0, 0, 0, {TAQWELIM_OPCODE_ABSENT, 0, 0, 0}}

/* A whole header: TXFN and the kind stand beside the fields. */
typedef struct taqwelim_header {
    taqwelim_fields fields;
    uint16_t txfn;
    uint8_t kind; /* 0 to 3 */
} taqwelim_header;

/* The sender's state. The queue is a ring: behind its last byte stands its first. Byte i of the waiting packets stands
 * at queue[(start + i) % 32768], for i below used. With this state the queue is whole where both numbers are in their
 * bounds and these bytes are packets with their marks, as put and next_frame leave them; otherwise it is refused
 * (3). */
typedef struct taqwelim_sender {
    size_t start;  /* where the waiting packets begin, below 32,768 */
    size_t used;   /* how many bytes they use, with their marks; at most 32,768 */
    uint16_t next; /* the TXFN of the next frame */
} taqwelim_sender;

/* The receiver's state: how many bytes of the hold are held, at most 8,999, and the TXFN that the next frame should
 * have, where expects is 1. Before the first frame expects is 0, and expected is 0. Other numbers are no state (3). */
typedef struct taqwelim_receiver {
    size_t held;
    uint16_t expected;
    uint8_t expects; /* 0 or 1 */
} taqwelim_receiver;

/* ---- an answer with a refusal is not to be dropped, and no call throws: said to compilers that know how */
#if (defined(__cplusplus) && __cplusplus >= 201703L) || (defined(__STDC_VERSION__) && __STDC_VERSION__ >= 202311L)
#define TAQWELIM_NO_DISCARD [[nodiscard]]
#elif defined(__GNUC__)
#define TAQWELIM_NO_DISCARD __attribute__((warn_unused_result))
#else
#define TAQWELIM_NO_DISCARD
#endif

#if !defined(__cplusplus)
#define TAQWELIM_NO_THROW
#elif __cplusplus >= 201103L
#define TAQWELIM_NO_THROW noexcept
#else
#define TAQWELIM_NO_THROW throw()
#endif

#ifdef __cplusplus
extern "C" {
#endif

/* ---- sending */

/* The state to begin with: nothing waits, and the first frame is frame 0. All zeros. */
taqwelim_sender taqwelim_fresh_sender(void) TAQWELIM_NO_THROW;

typedef struct taqwelim_put_answer {
    taqwelim_sender sender; /* with the packet's 2 + length bytes used */
    uint8_t refusal;
} taqwelim_put_answer;

/* Puts a packet of 1 to 9,000 bytes behind those that wait.
 * Writes a mark of two bytes and the packet behind the used bytes, round the ring, and touches nothing else of it.
 * Refuses: 2 queue_length is not 32,768; 3 the queue is not whole with this state; 4 packet_length is 0 or above 9,000;
 * 5 no room, which goes by used alone. */
TAQWELIM_NO_DISCARD
taqwelim_put_answer taqwelim_put(uint8_t *queue, size_t queue_length, taqwelim_sender sender, const uint8_t *packet,
                                 size_t packet_length) TAQWELIM_NO_THROW;

typedef struct taqwelim_waiting_answer {
    size_t packets; /* packets that wait; one that is begun counts */
    size_t bytes;   /* bytes of them that are still to be sent, without their marks */
    uint8_t refusal;
} taqwelim_waiting_answer;

/* Tells how much waits in the queue. Changes nothing.
 * Refuses: 2 queue_length is not 32,768; 3 the queue is not whole with this state. */
TAQWELIM_NO_DISCARD
taqwelim_waiting_answer taqwelim_waiting(const uint8_t *queue, size_t queue_length,
                                         taqwelim_sender sender) TAQWELIM_NO_THROW;

typedef struct taqwelim_next_answer {
    taqwelim_sender sender; /* what still waits, and the TXFN after this frame's */
    uint8_t kind;           /* TAQWELIM_KIND_IDLE where nothing waited, otherwise TAQWELIM_KIND_DATA */
    uint8_t refusal;
} taqwelim_next_answer;

/* Builds the next frame at the front of out: the fields given, the sender's TXFN, and as much of the waiting packets as
 * fits. What still waits stays where it is, and the start moves on to it; of the queue at most two bytes are written,
 * the new mark of a packet that was cut. All its other bytes, and those of out past the 2,081, keep their values.
 * Refuses: 1 the taps; 2 queue_length is not 32,768, or out_length is under 2,081; 3 the queue is not whole with this
 * state; 6 a field, for an IDLE frame too. */
TAQWELIM_NO_DISCARD
taqwelim_next_answer taqwelim_next_frame(uint32_t taps, taqwelim_fields fields, taqwelim_sender sender, uint8_t *queue,
                                         size_t queue_length, uint8_t *out, size_t out_length) TAQWELIM_NO_THROW;

/* ---- receiving: a frame is opened to its header and its area, and what was opened is applied to the receiver: once,
 *      as opened, and before the next frame is opened. Of the two calls the first refusal stands. A frame that either
 *      refuses leaves receiver, hold and list as they were, the number expected too: it will count as missing. */

/* The state to begin with: no number is expected, and nothing is held. All zeros. */
taqwelim_receiver taqwelim_fresh_receiver(void) TAQWELIM_NO_THROW;

typedef struct taqwelim_open_answer {
    taqwelim_header header; /* the frame's; zeros where it is refused, which apply would take for an IDLE frame */
    uint8_t repaired;       /* bytes of the frame that were wrong, 0 to 72 */
    uint8_t refusal;
} taqwelim_open_answer;

/* Opens a frame of 2,081 bytes, whatever its reserved bits. Up to 8 wrong bytes of its coded header, and of each of its
 * eight payload words, are repaired in a copy; the preamble is not. The 1,908 bytes of its data area, as repaired, are
 * written to the front of area; bytes past them keep their values. No receiver and no hold is lent: to a monitor that
 * wants no more than headers and areas, this call is enough.
 * Refuses: 1 the taps; 2 frame_length is not 2,081, or area_length is under 1,908; 7, 8, 9, 11, 12 and 13 what the
 * frame holds: 9 and 11 by the header as repaired, 13 by the payload as repaired. */
TAQWELIM_NO_DISCARD
taqwelim_open_answer taqwelim_open(uint32_t taps, const uint8_t *frame, size_t frame_length, uint8_t *area,
                                   size_t area_length) TAQWELIM_NO_THROW;

typedef struct taqwelim_repair_answer {
    uint8_t repaired; /* bytes of the part that were wrong, 0 to 72 */
    uint8_t refusal;
} taqwelim_repair_answer;

/* Repairs the part of a frame after its preamble, which open does by itself: for a program that keeps frames. The coded
 * header is 32 bytes of the part, and a payload word every eighth byte of the 2,040 behind them; up to 8 wrong bytes of
 * each are repaired. Where repaired is 0, the part itself is right, and the scratch keeps its bytes. Otherwise the part
 * as repaired, scrambled as it came, is written to the front of scratch; bytes past its 2,072 keep their values. No
 * check sum is judged: more than 8 wrong bytes may lie within 8 of another codeword, and open refuses what then comes.
 * Refuses: 1 the taps; 2 part_length is not 2,072, or scratch_length is under 2,072; 8 no codeword is near
 * the coded header, and one that changes any of the 223 bytes that are not sent does not count; 12 none is near a
 * payload word.
 *
 *     uint8_t *part = frame + TAQWELIM_PREAMBLE_SIZE, scratch[TAQWELIM_PART_SIZE];
 *     taqwelim_repair_answer answer = taqwelim_repair(TAQWELIM_TAPS_0_AND_3, part, TAQWELIM_PART_SIZE,
 *                                                     scratch, sizeof scratch);
 *     if (!answer.refusal)
 *         use(answer.repaired ? scratch : part, TAQWELIM_PART_SIZE); */
TAQWELIM_NO_DISCARD
taqwelim_repair_answer taqwelim_repair(uint32_t taps, const uint8_t *part, size_t part_length, uint8_t *scratch,
                                       size_t scratch_length) TAQWELIM_NO_THROW;

typedef struct taqwelim_apply_answer {
    taqwelim_receiver receiver; /* expects the number after the frame's */
    size_t packets;             /* packets in the list */
    size_t listed;              /* bytes of the list that hold them */
    uint16_t missed;            /* frames missing before this one, modulo 65,536; 0 for the first frame */
    uint8_t refusal;
} taqwelim_apply_answer;

/* Applies a frame that was opened: header and area are those that taqwelim_open gave. What open writes to may be longer
 * than the area; here area_length is exactly 1,908, so you cut it. The packets that the frame completes are written to
 * the list from its byte 0 on, to be read by taqwelim_entry over exactly `listed` bytes; the begun part of a packet is
 * kept at the front of the hold. All other bytes of both keep their values.
 * Refuses: 2 area_length is not 1,908, hold_length not 9,000, or list_length under 10,907; 3 the numbers of receiver
 * are no state; 11 no opening gives this header, whatever its kind: taqwelim_code_header refuses it with 6; 14 a DATA
 * area is against the packing rules; 15 its first record is too long for the held part that it continues. */
TAQWELIM_NO_DISCARD
taqwelim_apply_answer taqwelim_apply(taqwelim_header header, const uint8_t *area, size_t area_length,
                                     taqwelim_receiver receiver, uint8_t *hold, size_t hold_length, uint8_t *list,
                                     size_t list_length) TAQWELIM_NO_THROW;

typedef struct taqwelim_entry_answer {
    size_t start;  /* the packet is list[start] to list[start + length - 1], */
    size_t length; /* in the list that you gave */
    size_t next;   /* the position after it */
    uint8_t found; /* 1 for a packet; 0 at the end of the list, and for a refusal */
    uint8_t refusal;
} taqwelim_entry_answer;

/* What stands at a position of a list, 0 being the first. list_length is `listed` of the answer that wrote it. Where
 * the position is the list's end, found is 0 and refusal is 0. Changes nothing.
 * Refuses: 16 the position is past the end, or no entry stands there.
 *
 *     taqwelim_entry_answer entry = taqwelim_entry(list, listed, 0);
 *     while (entry.found) {
 *         use(list + entry.start, entry.length);
 *         entry = taqwelim_entry(list, listed, entry.next);
 *     } */
TAQWELIM_NO_DISCARD
taqwelim_entry_answer taqwelim_entry(const uint8_t *list, size_t list_length, size_t position) TAQWELIM_NO_THROW;

typedef struct taqwelim_place {
    size_t start;
    size_t length;
} taqwelim_place;

/* The place of the packet at a position, alone: start and length of taqwelim_entry, both 0 at an end or a refusal.
 * Changes nothing, and gives no number. */
taqwelim_place taqwelim_packet(const uint8_t *list, size_t list_length, size_t position) TAQWELIM_NO_THROW;

/* ---- bare headers, and the level */

typedef struct taqwelim_code_answer {
    uint8_t refusal;
} taqwelim_code_answer;

/* Codes a header, with any TXFN and of any kind, into exactly 16 bytes.
 * Refuses: 2 out_length is not 16; 6 a field, or a kind above 3. */
TAQWELIM_NO_DISCARD
taqwelim_code_answer taqwelim_code_header(taqwelim_header header, uint8_t *out, size_t out_length) TAQWELIM_NO_THROW;

typedef struct taqwelim_read_answer {
    taqwelim_header header;
    uint8_t refusal;
} taqwelim_read_answer;

/* Reads a header from exactly 16 bytes, whatever its reserved bits (code_header writes ones). Changes nothing.
 * Refuses: 2 length is not 16; 9 the CRC-16; 11 a field. */
TAQWELIM_NO_DISCARD
taqwelim_read_answer taqwelim_read_header(const uint8_t *bytes, size_t length) TAQWELIM_NO_THROW;

/* The level that a code stands for, in hundred-thousandths of a dBm/m2: -25,086 times the code. Refuses nothing. */
int32_t taqwelim_level(uint8_t code) TAQWELIM_NO_THROW;

#ifdef __cplusplus
}
#endif

#undef TAQWELIM_NO_DISCARD
#undef TAQWELIM_NO_THROW

#endif
