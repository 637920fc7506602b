"""The whole frame: built from a header and an area, and opened again. The header's own bits stand in headers.py.

"01" is the scope paper, "02" the paper of change requests, "000" the OISL Standard 2.1.2, "R" and a number a point of
READINGS.
"""

import random

import codes
import headers
import nearest
# These belong to the interface of this module, though they are defined beside the header's bits.
from headers import (  # noqa: F401
    ABSENT, ALL_ONES, BARE_HEADER, DATA, IDLE, RESERVED, WIDTHS, WITH_LOCK, Header, Message, bytes_by_table, code_header,
    header_bytes, header_of, header_refusals, level, may_be_sent, read_header, values_by_table, values_of, with_check,
    with_reserved,
)

PREAMBLE = bytes.fromhex("77AD5B5843641E2E26")  # 000, Table 2-8
CODED_HEADER = 32
FRAME = 2081
PART = 2072  # the bytes behind the preamble
HEADER_FILL = 223  # zero bytes coded in front of the header and not sent (000, Table 2-16)


def coded_header(sixteen):
    """The header and its 16 parity bytes, coded with 223 zero bytes in front that are not sent."""
    return bytes(sixteen) + codes.parity(bytes(HEADER_FILL) + bytes(sixteen))


def frame_of(taps, coded, payload, preamble=PREAMBLE):
    """The preamble as it is, then header and payload scrambled under one key."""
    return bytes(preamble) + codes.scramble(taps, bytes(coded) + bytes(payload))


def build(taps, header, area):
    """The frame of a header that may be sent and an area of 1,908 bytes."""
    payload = codes.code_payload(codes.payload_data_of(area))
    return frame_of(taps, coded_header(header_bytes(header)), payload)


def parts_of(taps, frame):
    """Coded header and coded payload with the key taken off."""
    plain = codes.scramble(taps, frame[len(PREAMBLE):])
    return plain[:CODED_HEADER], plain[CODED_HEADER:]


def repaired_parts(taps, part):
    """Coded header and coded payload with the key taken off and their wrong bytes repaired; None in place of either
    where no codeword is that near (02, M-101)."""
    plain = codes.scramble(taps, part)
    return nearest.near_header(plain[:CODED_HEADER]), nearest.near_payload(plain[CODED_HEADER:])


def content_refusals(preamble, coded, payload):
    """Those from 7 to 13 that apply to a frame's preamble and its repaired parts; 12 and 13 for every type (R11). Check
    sums and rules are those of the repaired bytes: where there are none, 8 or 12 alone can be judged."""
    refusals = [8] if coded is None else header_refusals(coded[:BARE_HEADER])
    if bytes(preamble) != PREAMBLE:
        refusals.append(7)
    if payload is None:
        refusals.append(12)
    elif codes.payload_data_of(payload[:codes.AREA]) != payload[:codes.PAYLOAD_DATA]:
        refusals.append(13)
    return refusals


def open_frame(taps, frame, room):
    """A frame opened: the number, and where it is 0 the header, the area and how many bytes were repaired."""
    refusals = []
    coded = payload = None
    if not codes.are_taps(taps):
        refusals.append(1)
    if len(frame) != FRAME or room < codes.AREA:
        refusals.append(2)
    # Only with taps and a whole frame is there anything to descramble; 1 and 2 are the lowest in any case.
    if not refusals:
        coded, payload = repaired_parts(taps, frame[len(PREAMBLE):])
        refusals = content_refusals(frame[:len(PREAMBLE)], coded, payload)
    if refusals:
        return min(refusals), None, None, None
    repaired = nearest.differences(frame, frame_of(taps, coded, payload))
    return 0, header_of(coded[:BARE_HEADER]), payload[:codes.AREA], repaired


# Trials


def damaged(frame, *places):
    """The frame with the bytes at these places changed."""
    spoiled = bytearray(frame)
    for place in places:
        spoiled[place] ^= 0x10
    return bytes(spoiled)


def damaged_header(frame, count):
    """So many wrong bytes in the coded header, from its end."""
    return damaged(frame, *range(40, 40 - count, -1))


def damaged_word(frame, word, count):
    """So many wrong bytes in a word of the payload, every eighth byte, from its end."""
    return damaged(frame, *range(2073 + word, 2073 + word - 8 * count, -8))


def recoded(taps, sixteen, payload_data):
    """A frame whose words are right whatever header and payload they carry."""
    return frame_of(taps, coded_header(sixteen), codes.code_payload(payload_data))


def refusal_cases(taps, header, area):
    """Each refusal of a frame, with every lower one kept away."""
    frame = build(taps, header, area)
    good = header_bytes(header)
    payload_data = codes.payload_data_of(area)
    no_lock = with_check(good[:11] + bytes([0xB1, 0x02, 0x00]))
    check_turned = area + payload_data[:-5:-1]
    return [
        ("taps 0", open_frame(0, b"", 0)[0], 1),
        ("a byte less", open_frame(taps, frame[:-1], codes.AREA)[0], 2),
        ("no room", open_frame(taps, frame, codes.AREA - 1)[0], 2),
        ("preamble", open_frame(taps, damaged_header(damaged(frame, 0), 9), codes.AREA)[0], 7),
        ("preamble alone", open_frame(taps, damaged(frame, 8), codes.AREA)[0], 7),
        ("header word", open_frame(taps, damaged_header(frame, 9), codes.AREA)[0], 8),
        ("CRC-16", open_frame(taps, recoded(taps, good[:14] + bytes(2), payload_data), codes.AREA)[0], 9),
        ("lock 2", open_frame(taps, recoded(taps, no_lock, payload_data), codes.AREA)[0], 11),
        ("payload word", open_frame(taps, damaged_word(frame, 7, 9), codes.AREA)[0], 12),
        ("CRC-32 low byte first", open_frame(taps, recoded(taps, good, check_turned), codes.AREA)[0], 13),
        ("other taps", open_frame(0b11, frame, codes.AREA)[0], 8),
    ]


def sending_cases(header):
    """R7: each field and each part of a message at its largest, and one above it."""
    cases = []
    for name, width in [("txfn", 16), ("type", 2), ("rxfn", 16), ("stamp", 40), ("seconds", 6), ("applies", 3)]:
        pair = [header._replace(**{name: number}) for number in (2 ** width - 1, 2 ** width)]
        cases.append((f"largest {name}", [may_be_sent(given) for given in pair], [True, False]))
        cases.append((f"largest {name} read back", header_of(header_bytes(pair[0])), pair[0]))
    for kind, widths in WIDTHS.items():
        largest = [1 if kind in WITH_LOCK and width == 2 else 2 ** width - 1 for width in widths]
        full = header._replace(message=Message(kind, tuple(largest)))
        cases.append((f"largest of kind {kind} read back", read_header(header_bytes(full)), (0, full)))
        for place in range(len(widths)):
            above = largest[:place] + [largest[place] + 1] + largest[place + 1:]
            given = header._replace(message=Message(kind, tuple(above)))
            cases.append((f"kind {kind}, above the largest at {place}", may_be_sent(given), False))
    opcodes = [header._replace(message=Message(RESERVED, (opcode,))) for opcode in range(17)]
    sendable = [may_be_sent(given) for given in opcodes]
    cases.append(("reserved opcodes", sendable, [False] * 7 + [True] * 8 + [False] * 2))
    cases.append(("RXFN unacknowledged", may_be_sent(header._replace(valid=0, rxfn=1)), False))
    return cases


def arriving_cases():
    """R6: fields that keep their rule, and ones that do not, in headers whose CRC-16 agrees."""
    plain = values_of(Header(1, IDLE, 0, 0, 0, 0, 0, 0, Message(ABSENT, ())))
    cases = []
    for changes, wanted in [
        ({}, 0), ({"RXFN": 1}, 11), ({"RXFN": 1, "ACK-valid": 1}, 0), ({"ACK": 1}, 0), ({"TOD_SECONDS": 63}, 0),
        ({"FCCH_PL": 0x7FFF}, 11), ({"FCCH_OPCODE": 14}, 11), ({"FCCH_OPCODE": 14, "FCCH_PL": 0}, 0),
        ({"FCCH_OPCODE": 7, "FCCH_PL": 1}, 11), ({"FCCH_OPCODE": 7, "FCCH_PL": 0}, 0), ({"FCCH_OPCODE": 6}, 0),
        ({"FCCH_OPCODE": 1}, 11), ({"FCCH_OPCODE": 1, "FCCH_PL": 0xFFFD}, 0), ({"FCCH_OPCODE": 3, "FCCH_PL": 2}, 11),
        ({"FCCH_OPCODE": 2}, 0), ({"reserved": 0}, 0), ({"FRAME_TYPE": 3}, 0), ({"RXFN": 1, "reserved": 0}, 11),
    ]:
        given = with_check(bytes_by_table({**plain, **changes}))
        cases.append((f"arriving with {changes}", read_header(given)[0], wanted))
    return cases


def reserved_cases(taps, header, area):
    """02, M-100: a header with all choices of the reserved bits, and with the check sum of the ones; frames with some."""
    fourteen, check = header_bytes(header)[:14], header_bytes(header)[14:]
    payload_data = codes.payload_data_of(area)
    cases = []
    for reserved in range(ALL_ONES):
        other = with_reserved(fourteen, reserved)
        cases.append((f"reserved bits {reserved}, read", read_header(with_check(other)), (0, header)))
        cases.append((f"reserved bits {reserved}, CRC-16 of the ones", read_header(other + check), (9, None)))
    for reserved in [0, *(ALL_ONES - 2 ** bit for bit in range(7))]:
        frame = recoded(taps, with_check(with_reserved(fourteen, reserved)), payload_data)
        cases.append((f"reserved bits {reserved}, opened", open_frame(taps, frame, codes.AREA), (0, header, area, 0)))
    return cases


def own_trial():
    """Tries every number of 01 that concerns header and frame, and each refusal of a frame; gives how many."""
    taps = 0b1001
    area = random.Random(2081).randbytes(codes.AREA)
    header = Header(0x1234, DATA, 0xFFFF, 1, 1, 1, 59, 3, Message(5, (2, 1, 2)))
    frame = build(taps, header, area)
    tried = headers.own_trial() + codes.all_same(sending_cases(header) + arriving_cases())
    tried += codes.all_same(reserved_cases(taps, header, area))
    return tried + codes.all_same(refusal_cases(taps, header, area) + [
        ("ones of the preamble", sum(byte.bit_count() for byte in PREAMBLE), 36),
        ("length of a frame", len(frame), FRAME),
        ("opened", open_frame(taps, frame, 5000), (0, header, area, 0)),
        ("the preamble is not scrambled", frame[:9], PREAMBLE),
        ("header and payload under one key", codes.scramble(taps, frame[9:])[32:1940], area),
        ("the header word with its zeros", codes.is_codeword(bytes(223) + parts_of(taps, frame)[0]), True),
    ])


if __name__ == "__main__":
    print(own_trial())
