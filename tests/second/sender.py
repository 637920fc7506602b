"""The sending end: packets put into the lent queue, a ring, and one coded frame per call.

"01" is the scope paper, "02" the paper of change requests, "R" and a number a point of READINGS.
"""

from typing import NamedTuple

import codes
import frames
import packing


class Sender(NamedTuple):
    """Where in the ring the used bytes begin, how many they are, and the TXFN of the next frame."""

    start: int
    used: int
    next: int


FRESH = Sender(0, 0, 0)


def waiting(queue, sender):
    """The packets that wait, as (begun, unsent bytes), or None where the queue is not whole with this state."""
    return packing.waiting_in(queue, sender.start, sender.used)


def put_refusals(queue, sender, packet):
    """Those of 2 to 5 that apply; a queue of the wrong length is not looked into (R1)."""
    refusals = []
    if len(queue) != packing.QUEUE:
        refusals.append(2)
    elif waiting(queue, sender) is None:
        refusals.append(3)
    if not 1 <= len(packet) <= packing.PACKET:
        refusals.append(4)
    if sender.used + packing.MARK + len(packet) > packing.QUEUE:
        refusals.append(5)
    return refusals


def put(queue, sender, packet):
    """A packet added behind the used bytes: the number, the state and the queue after the call."""
    refusals = put_refusals(queue, sender, packet)
    if refusals:
        return min(refusals), sender, bytes(queue)
    added = packing.layout([(False, bytes(packet))])
    after = sender._replace(used=sender.used + len(added))
    return 0, after, packing.written_round(queue, sender.start + sender.used, added)


def count_refusals(queue, sender):
    """Those of 2 and 3 that apply."""
    if len(queue) != packing.QUEUE:
        return [2]
    return [3] if waiting(queue, sender) is None else []


def count_waiting(queue, sender):
    """How many packets wait, one that is begun among them, and how many bytes of them: the number, the two counts."""
    refusals = count_refusals(queue, sender)
    if refusals:
        return min(refusals), 0, 0
    waits = waiting(queue, sender)
    return 0, len(waits), sum(len(unsent) for _, unsent in waits)


def frame_refusals(taps, header, sender, queue, output):
    """Those of 1, 2, 3 and 6 that apply."""
    refusals = []
    if not codes.are_taps(taps):
        refusals.append(1)
    if len(queue) != packing.QUEUE or len(output) < frames.FRAME:
        refusals.append(2)
    if len(queue) == packing.QUEUE and waiting(queue, sender) is None:
        refusals.append(3)
    if not frames.may_be_sent(header):
        refusals.append(6)
    return refusals


def next_frame(taps, fields, sender, queue, output):
    """One frame into the output: the number, and the state, the queue and the output after the call."""
    frame_type = frames.IDLE if sender.used == 0 else frames.DATA
    header = fields._replace(txfn=sender.next, type=frame_type)
    refusals = frame_refusals(taps, header, sender, queue, output)
    if refusals:
        return min(refusals), sender, bytes(queue), bytes(output)
    # With nothing waiting, fill gives the zeros of an IDLE area and nothing moves.
    area, rest = packing.fill(waiting(queue, sender))
    remaining = packing.layout(rest)
    # The start moves by what left the queue, also when that was all of it (02, M-105).
    start = (sender.start + sender.used - len(remaining)) % packing.QUEUE
    after = Sender(start, len(remaining), (sender.next + 1) % 65536)
    frame = frames.build(taps, header, area)
    # What remains stands where it stood, so that its first mark alone is written: that of a packet that was cut is new.
    queue_after = packing.written_round(queue, start, remaining[:packing.MARK])
    return 0, after, queue_after, frame + bytes(output[len(frame):])


# Trials


TAPS = 0b1001
FIELDS = frames.Header(0, 0, 0, 0, 0, 0, 0, 0, frames.Message(frames.ABSENT, ()))
EMPTY = bytes([0x5A]) * packing.QUEUE
OUTPUT = bytes([0xA5]) * (frames.FRAME + 3)
LAST = packing.QUEUE - 1  # the ring's last place


def filled(lengths, start=0):
    """State and queue after packets of these lengths, put one after the other into a ring that is empty there."""
    sender, queue = Sender(start, 0, 0), EMPTY
    for length in lengths:
        number, sender, queue = put(queue, sender, bytes([length % 251]) * length)
        codes.all_same([(f"a packet of {length} is taken", number, 0)])
    return sender, queue


def put_cases():
    """01's numbers on the queue, and the refusals of put."""
    three, queue = filled([9000, 9000, 9000])
    full, full_queue = filled([9000, 9000, 9000, 5760])
    spoiled = b"\0\0" + queue[2:]
    past_the_end = Sender(packing.QUEUE, 0, 0)
    return [
        ("three of 9,000", three, Sender(0, 27006, 0)),
        ("a fourth of 5,760 fills it", full.used, packing.QUEUE),
        ("a fourth of 5,761", put(queue, three, bytes(5761)), (5, three, queue)),
        ("full, one byte", put(full_queue, full, b"\1"), (5, full, full_queue)),
        ("full, no byte", put(full_queue, full, b""), (4, full, full_queue)),
        ("9,001 bytes", put(EMPTY, FRESH, bytes(9001)), (4, FRESH, EMPTY)),
        ("not whole, no byte", put(spoiled, three, b""), (3, three, spoiled)),
        ("used too large", put(EMPTY, Sender(0, 2 ** 64 - 1, 0), b"\1")[0], 3),
        ("start too large", put(EMPTY, past_the_end, b"\1"), (3, past_the_end, EMPTY)),
        ("queue too long", put(EMPTY + b"\0", Sender(2 ** 64 - 1, 2 ** 64 - 1, 0), b"")[0], 2),
        ("put touches nothing else", put(EMPTY, FRESH, b"\xAA"), (0, Sender(0, 3, 0), b"\0\1\xAA" + EMPTY[3:])),
        ("a mark parted by the end", put(EMPTY, Sender(LAST, 0, 0), b"\xAA"),
         (0, Sender(LAST, 3, 0), b"\1\xAA" + EMPTY[2:LAST] + b"\0")),
    ]


def count_cases():
    """Packets and bytes that wait, and the refusals of the call that counts them."""
    sender, queue = filled([1907, 5])
    _, begun, begun_queue, _ = next_frame(TAPS, FIELDS, sender, queue, OUTPUT)
    least = packing.written_round(EMPTY, LAST, packing.layout([(False, b"\1")] * 10922))
    return [
        ("nothing waits", count_waiting(EMPTY, FRESH), (0, 0, 0)),
        ("two wait", count_waiting(queue, sender), (0, 2, 1912)),
        ("one is begun", count_waiting(begun_queue, begun), (0, 2, 6)),
        ("as many as can", count_waiting(least, Sender(LAST, 32766, 0)), (0, 10922, 10922)),
        ("counted in a queue too long", count_waiting(queue + b"\0", sender), (2, 0, 0)),
        ("counted where it is not whole", count_waiting(queue, sender._replace(used=1)), (3, 0, 0)),
    ]


def sent(lengths, start=0):
    """The areas sent for packets of these lengths up to the first IDLE frame, and the last state."""
    sender, queue = filled(lengths, start)
    areas = []
    while True:
        before = sender
        number, sender, queue, output = next_frame(TAPS, FIELDS, sender, queue, OUTPUT)
        codes.all_same([("sent", number, 0), ("bytes past the frame", output[frames.FRAME:], OUTPUT[frames.FRAME:])])
        number, header, area, _ = frames.open_frame(TAPS, output[:frames.FRAME], codes.AREA)
        codes.all_same([("opened", (number, header.txfn), (0, before.next))])
        if header.type == frames.IDLE:
            return areas, sender
        areas.append(area)


def frame_cases():
    """01's numbers on the frames sent, and how state and queue go on."""
    sender, queue = filled([1907, 5])
    once = next_frame(TAPS, FIELDS, sender, queue, OUTPUT)
    marks = [area[:2].hex() for area in sent([9000])[0]]
    both, waits, alone = sent([1903, 1])[0], sent([1903, 2])[0], sent([1904, 1])[0]
    idle = next_frame(TAPS, FIELDS, Sender(7, 0, 65535), EMPTY, OUTPUT)
    return [
        ("1,906", [area[:2].hex() for area in sent([1906])[0]], ["c772"]),
        ("1,907", [area[:2].hex() for area in sent([1907])[0]], ["8772", "4001"]),
        ("9,000", marks, ["8772", "0772", "0772", "0772", "4560"]),
        ("1,903, then 1", (len(both), both[0][1905:].hex()), (1, "c00101")),
        ("1,903, then 2", (len(waits), waits[0][1905:].hex(), waits[1][:3].hex()), (2, "800102", "400102")),
        ("1,904, then 1", (len(alone), alone[0][1906:], alone[1][:3].hex()), (2, b"\0\0", "c00101")),
        ("every frame counts", sent([9000])[1], Sender(9002, 0, 6)),
        ("the start moves on", once[1], Sender(1906, 3 + 7, 1)),
        ("only the new mark is written", once[2], queue[:1906] + b"\x80\x01" + queue[1908:]),
        ("IDLE: only the TXFN changes", idle[:3], (0, Sender(7, 0, 0), EMPTY)),
        ("IDLE: zeros", frames.open_frame(TAPS, idle[3][:frames.FRAME], codes.AREA)[2], bytes(codes.AREA)),
    ]


def ring_cases():
    """What the end of the ring parts, and that frames do not tell where they stood in it."""
    long, long_queue = filled([9000], LAST - 1906)
    parted = next_frame(TAPS, FIELDS, long, long_queue, OUTPUT)
    two, two_queue = filled([1903, 2], LAST - 1906)
    after_one = next_frame(TAPS, FIELDS, two, two_queue, OUTPUT)
    full = [9000, 9000, 9000, 5760]
    return [
        ("a new mark parted by the end", parted[1:3], (Sender(LAST, 7096, 1), b"\xB6" + long_queue[1:LAST] + b"\x9B")),
        ("a cut after one byte", after_one[1:3], (Sender(LAST, 3, 1), b"\x01" + two_queue[1:LAST] + b"\x80")),
        ("a full ring emptied", sent(full, LAST)[1], Sender(LAST, 0, 19)),
        ("the same frames from any start", sent(full, LAST)[0], sent(full, 0)[0]),
    ]


def refusal_cases():
    """The refusals of next_frame, and that they change nothing."""
    wrong = FIELDS._replace(rxfn=1)
    torn, past_the_end = Sender(0, 1, 7), Sender(packing.QUEUE, 0, 7)
    return [
        ("taps", next_frame(2, wrong, torn, EMPTY[1:], b"ab"), (1, torn, EMPTY[1:], b"ab")),
        ("queue's length", next_frame(TAPS, wrong, torn, EMPTY[1:], OUTPUT)[0], 2),
        ("output's length", next_frame(TAPS, wrong, torn, EMPTY, OUTPUT[:2080]), (2, torn, EMPTY, OUTPUT[:2080])),
        ("queue not whole", next_frame(TAPS, wrong, torn, EMPTY, OUTPUT), (3, torn, EMPTY, OUTPUT)),
        ("start too large", next_frame(TAPS, wrong, past_the_end, EMPTY, OUTPUT), (3, past_the_end, EMPTY, OUTPUT)),
        ("IDLE with a wrong field", next_frame(TAPS, wrong, FRESH, EMPTY, OUTPUT), (6, FRESH, EMPTY, OUTPUT)),
        ("txfn and type are ignored",
         next_frame(TAPS, FIELDS._replace(txfn=-1, type=9), FRESH, EMPTY, OUTPUT),
         next_frame(TAPS, FIELDS, FRESH, EMPTY, OUTPUT)),
    ]


def own_trial():
    """Tries every number of 01 that concerns the sender; gives how many."""
    return codes.all_same(put_cases() + count_cases() + frame_cases() + ring_cases() + refusal_cases())


if __name__ == "__main__":
    print(own_trial())
