"""The vectors of whole frames.

    13  frame built    taps 4, fields, the frame, the area; from here on this frame is at hand
    14  frame opened   taps 4, the room lent for the area 2, a byte 0, fields, how many bytes were repaired 1, the area:
                       opening the frame at hand
    15  frame refused  taps 4, the length 2, the room lent 2, the refusal's number, changes: to the frame at hand
    34  frame changed  the digest of the frame after the changes, the changes: from here on this frame is at hand

The fields are those of header_vectors.py. An area is stored as a pattern that is repeated up to 1,908 bytes; one of
1,908 bytes is the area itself. A change is a place, 2 bytes, and what is added modulo 2 to the byte there, so that a
damaged frame is given byte for byte; behind one that is too long stand bytes that are not said. A refusal leaves all
bytes that were lent as they were.
"""

from itertools import combinations
from typing import NamedTuple

from code_vectors import in_blocks
from coder import codes, frames
from damage import OF_THE_FRAME, broken_rules, damage_of_each_number, damaged, some_damage
from header_vectors import EDGES, KINDS, TYPES, fields, some_header
from records import Numbers, changes, digest, record, with_bit_changed

AREA = codes.AREA
FRAME = frames.FRAME
PREAMBLE = frames.PREAMBLE

BENCH_TAPS = 0b1001
ALL_TAPS = 2**25 - 1


class Sent(NamedTuple):
    """What a frame is made of."""

    taps: int
    header: frames.Header
    pattern: bytes

    @property
    def area(self):
        return (self.pattern * AREA)[:AREA]

    @property
    def frame(self):
        return frames.build(self.taps, self.header, self.area)


# ---------------------------------------------------------------------------------------------------------------------
# The kinds.


def whole(sent, room):
    """A frame built, and opened again."""
    yield record(13, sent.taps.to_bytes(4, "big"), fields(sent.header), sent.frame, sent.pattern)
    yield opened(sent, sent.frame, room)


def opened(sent, frame, room, repaired=0):
    """The frame at hand opened: the second coder has to find again what was put in, and how many bytes went wrong."""
    assert frames.open_frame(sent.taps, frame, room) == (0, sent.header, sent.area, repaired)
    lent = sent.taps.to_bytes(4, "big") + room.to_bytes(2, "big")
    return record(14, lent, b"\x00", fields(sent.header), bytes([repaired]), sent.pattern)


def changed_to(at_hand, frame):
    """A frame that no sender of ours builds is then at hand."""
    return record(34, digest(frame), changes(at_hand, frame))


def refused(number, at_hand, taps, frame, room=AREA):
    """The number is the one that is meant; the second coder has to find it too."""
    found = frames.open_frame(taps, frame, room)[0]
    assert found == number, (found, number)
    sizes = len(frame).to_bytes(2, "big") + room.to_bytes(2, "big")
    return record(15, taps.to_bytes(4, "big"), sizes, bytes([number]), changes(at_hand, frame))


# ---------------------------------------------------------------------------------------------------------------------
# Whole frames.


def some_pattern(numbers, turn):
    """Zeros, ones, 318 records of the bench's packing, counting, and bytes at random that return soon or late."""
    return [
        b"\x00",
        numbers.bytes(1 + numbers.below(8)),
        b"\xc0\x04" + numbers.bytes(4),
        numbers.bytes(97),
        b"\xff",
        bytes(range(1, 60)),
        numbers.bytes(1 + numbers.below(64)),
    ][turn % 7]


def whole_areas(numbers):
    """Areas of the bench's packing (01, Numbers to try), and bytes at random."""
    yield bytes.fromhex("C001AA") + bytes(1905)
    yield bytes.fromhex("8772") + numbers.bytes(1906)
    yield bytes.fromhex("4560") + numbers.bytes(1376) + bytes(530)
    yield bytes.fromhex("C76F") + numbers.bytes(1903) + bytes.fromhex("C001") + numbers.bytes(1)
    for _ in range(4):
        yield numbers.bytes(AREA)


def sent_frames(numbers):
    """All kinds and types with all sorts of taps and areas; each tap beside tap 0 alone; headers at their edges."""
    for kind in KINDS:
        for frame_type in TYPES:
            taps = [BENCH_TAPS, 1, ALL_TAPS] + [numbers.taps() for _ in range(4)]
            for turn in range(7):
                pattern = some_pattern(numbers, turn + kind + frame_type)
                yield Sent(taps[turn], some_header(numbers, frame_type, kind), pattern)
    for tap in range(1, codes.STAGES):
        yield Sent(1 + 2**tap, some_header(numbers, tap % 4, tap % 9), some_pattern(numbers, tap))
    for turn, header in enumerate(EDGES):
        yield Sent(numbers.taps(), header, some_pattern(numbers, turn))
        yield Sent(BENCH_TAPS, header, some_pattern(numbers, turn + 1))
    for turn, area in enumerate(whole_areas(numbers)):
        yield Sent([BENCH_TAPS, numbers.taps()][turn % 2], some_header(numbers, turn % 4, turn % 9), area)


def whole_records():
    numbers = Numbers(9)
    for turn, sent in enumerate(sent_frames(numbers)):
        yield from whole(sent, [AREA, AREA + 1, 2000, 2100][turn % 4])


# ---------------------------------------------------------------------------------------------------------------------
# Frames that are refused.


def arguments_refused(sent, frame):
    """1 and 2, with nothing else wrong; and other taps, which are allowed, but not those of the frame."""
    for taps in [0, sent.taps - 1, sent.taps + 2**25, 2**25, 2**32 - 1]:
        yield refused(1, frame, taps, frame)
    for length in [0, 9, FRAME - 1, FRAME + 1]:
        yield refused(2, frame, sent.taps, (frame + b"\x00")[:length])
    for room in [0, AREA - 1]:
        yield refused(2, frame, sent.taps, frame, room)
    yield refused(8, frame, sent.taps ^ 2, frame)


def damaged_records():
    """Each number by itself, for eight frames of all types."""
    numbers = Numbers(10)
    rules = broken_rules()
    for turn in range(8):
        sent = Sent(numbers.taps(), some_header(numbers, turn % 4, turn), numbers.bytes(1 + 31 * turn))
        frame = sent.frame
        yield from whole(sent, AREA)
        yield from arguments_refused(sent, frame)
        for number, damage in damage_of_each_number(numbers, rules[turn % 3 :: 3]):
            yield refused(number, frame, sent.taps, damaged(sent, [damage]))


def order_records():
    """Every choice of the numbers from 7 to 13 together: the first in opening's order stands. Nothing is written, also
    where there is more room. 1 and 2 before each of them, and 1 before 2."""
    numbers = Numbers(11)
    sent = Sent(BENCH_TAPS, some_header(numbers, frames.DATA, 5), numbers.bytes(97))
    frame = sent.frame
    yield from whole(sent, AREA)
    for length, room in [(FRAME - 1, AREA), (FRAME, AREA - 1), (FRAME - 1, AREA - 1)]:
        yield refused(1, frame, sent.taps - 1, frame[:length], room)
        yield refused(2, frame, sent.taps, frame[:length], room)
    for count in range(1, len(OF_THE_FRAME) + 1):
        for choice in combinations(OF_THE_FRAME, count):
            damage = some_damage(numbers)
            found = damaged(sent, [damage[number] for number in choice])
            yield refused(choice[0], frame, sent.taps, found)
            if count == 1:
                yield refused(choice[0], frame, sent.taps, found, 2000)
                yield refused(choice[0], frame, sent.taps, found, 2100)
                yield refused(2, frame, sent.taps, found, AREA - 1)
                yield refused(2, frame, sent.taps, found[:-1])
                yield refused(1, frame, sent.taps - 1, found)
                yield refused(1, frame, sent.taps + 2**25, found[:-1], AREA - 1)


# ---------------------------------------------------------------------------------------------------------------------
# Every bit of the preamble, and the slips that are to be expected.


def restarted(sent, frame):
    """The payload scrambled from a restarted register."""
    _, payload = frames.parts_of(sent.taps, frame)
    return frame[: FRAME - codes.PAYLOAD] + codes.scramble(sent.taps, payload)


def slip_records():
    numbers = Numbers(12)
    sent = Sent(numbers.taps(), some_header(numbers, frames.IDLE, 8), b"\x00")
    frame = sent.frame
    yield from whole(sent, AREA)
    for place in range(8 * len(PREAMBLE)):
        damage = "preamble", lambda part, place=place: with_bit_changed(part, place)
        yield refused(7, frame, sent.taps, damaged(sent, [damage]))
    zeros_behind = "coded", lambda part: part[:16] + codes.parity(part[:16] + bytes(223))
    yield refused(8, frame, sent.taps, damaged(sent, [zeros_behind]))
    yield refused(12, frame, sent.taps, restarted(sent, frame))
    sent = sent._replace(pattern=numbers.bytes(251))
    yield from whole(sent, AREA)
    blocks = "payload", lambda part: in_blocks(part[: codes.PAYLOAD_DATA])
    yield refused(12, sent.frame, sent.taps, damaged(sent, [blocks]))


# ---------------------------------------------------------------------------------------------------------------------
# Frames of a maker that writes the reserved bits otherwise.


def with_reserved(taps, frame, reserved):
    """The frame as another maker builds it, with these reserved bits under its CRC-16 and its parity."""
    start, end = len(PREAMBLE), len(PREAMBLE) + frames.CODED_HEADER
    fourteen = codes.scramble(taps, frame[start:end])[:14]
    coded = frames.coded_header(frames.with_check(frames.with_reserved(fourteen, reserved)))
    return frame[:start] + codes.scramble(taps, coded) + frame[end:]


def reserved_records():
    """02, M-100: all 128 choices of the seven reserved bits, opened to the same header and area; one cleared under the
    check sum of the ones is refused, and under their parity it is a wrong byte, which is repaired (M-101)."""
    numbers = Numbers(38)
    sent = Sent(numbers.taps(), some_header(numbers, frames.DATA, 3), numbers.bytes(31))
    yield from whole(sent, AREA)
    at_hand = sent.frame
    for reserved in range(frames.ALL_ONES):
        frame = with_reserved(sent.taps, sent.frame, reserved)
        yield changed_to(at_hand, frame)
        yield opened(sent, frame, AREA)
        at_hand = frame
    for bit in range(7):

        def cleared(part):
            return frames.with_reserved(part[:14], frames.ALL_ONES - 2**bit) + part[14:]

        yield refused(9, at_hand, sent.taps, damaged(sent, [("sixteen", cleared)]))
        frame = damaged(sent, [("coded", cleared)])
        yield changed_to(at_hand, frame)
        yield opened(sent, frame, AREA, 1)
        at_hand = frame


GROUPS = [whole_records, damaged_records, order_records, slip_records, reserved_records]
