"""The vectors of the ring (02, M-105), in the records of sender_session.py: what its end parts, a ring that is full to
its last byte, and starts that are none. What a ring should hold, and where it should begin, is written here in numbers,
and the second coder has to find it too."""

from coder import frames, packing
from frame_vectors import BENCH_TAPS
from header_vectors import some_header
from records import Numbers
from sender_session import Session, seeded
from sender_vectors import area_of, carried, not_whole_records, written

QUEUE = packing.QUEUE
LAST = QUEUE - 1  # the ring's last place; behind it comes place 0


def idle(numbers, session):
    """An IDLE frame, which moves nothing in the ring."""
    before, queue = session.sender, session.queue
    yield session.next_frame(BENCH_TAPS, some_header(numbers, frames.IDLE, numbers.below(9)), full=True)
    assert session.sender == before._replace(next=(before.next + 1) % 2**16) and before.used == 0
    yield session.queue_in_full(queue)


# ---------------------------------------------------------------------------------------------------------------------
# Cuts at the end of the ring. Of each: the lengths put, the start, the last packet's mark as put, and the bytes that
# the frame then writes: its new mark.


CUTS = [
    # The new mark is parted by the end.
    ([1907], LAST - 1906, {LAST - 1906: 0x07, LAST - 1905: 0x73}, {LAST: 0x80, 0: 0x01}),
    ([9000], LAST - 1906, {LAST - 1906: 0x23, LAST - 1905: 0x28}, {LAST: 0x9B, 0: 0xB6}),
    # After a cut of one byte the new mark goes over the old one's low byte and the byte sent.
    ([1903, 2], LAST - 1906, {LAST - 1: 0x00, LAST: 0x02}, {LAST: 0x80, 0: 0x01}),
    ([1903, 9000], LAST - 1905, {LAST: 0x23, 0: 0x28}, {0: 0xA3, 1: 0x27}),
    ([1903, 2], 12345, {14250: 0x00, 14251: 0x02}, {14251: 0x80, 14252: 0x01}),
]


def with_bytes(queue, bytes_at):
    after = bytearray(queue)
    for place, byte in bytes_at.items():
        after[place] = byte
    return bytes(after)


def cut_records():
    """The ring in full before the frame that cuts the last packet and after it; then it is emptied."""
    numbers = Numbers(19)
    for lengths, start, mark, new_mark in CUTS:
        session = Session(numbers.next(), start)
        yield session.begun()
        for length in lengths:
            yield session.put(length, numbers.next())
        before, used = session.queue, session.sender.used
        assert before == with_bytes(before, mark)
        yield session.queue_in_full(before)
        yield session.next_frame(BENCH_TAPS, some_header(numbers, frames.DATA, numbers.below(9)), full=True)
        high_place, _ = new_mark
        assert session.sender == (high_place, used - 1906, 1)
        yield session.queue_in_full(with_bytes(before, new_mark))
        while session.sender.used:
            yield session.next_frame(BENCH_TAPS, some_header(numbers, frames.DATA, numbers.below(9)), full=True)
        assert session.sender.start == (start + used) % QUEUE


# ---------------------------------------------------------------------------------------------------------------------
# A ring that is full to its last byte, and whose first mark the end parts.


FULL = [(9000, "2328"), (9000, "2328"), (9000, "2328"), (5760, "1680")]

# Of each frame that empties it: the marks of its records; where the ring begins after it, and how many bytes are used;
# and the mark that is written there, of the packet that was cut.
EMPTYING = [
    (["8772"], 1905, 30862, "9BB6"),
    (["0772"], 3811, 28956, "9444"),
    (["0772"], 5717, 27050, "8CD2"),
    (["0772"], 7623, 25144, "8560"),
    (["4560", "8210"], 9529, 23238, "A118"),
    (["0772"], 11435, 21332, "99A6"),
    (["0772"], 13341, 19426, "9234"),
    (["0772"], 15247, 17520, "8AC2"),
    (["0772"], 17153, 15614, "8350"),
    (["4350", "8420"], 19059, 13708, "9F08"),
    (["0772"], 20965, 11802, "9796"),
    (["0772"], 22871, 9896, "9024"),
    (["0772"], 24777, 7990, "88B2"),
    (["0772"], 26683, 6084, "8140"),
    (["4140", "8630"], 28589, 4178, "9050"),
    (["0772"], 30495, 2272, "88DE"),
    (["0772"], 32401, 366, "816C"),
    (["416C"], LAST, 0, ""),
]


def taken(marks, unsent):
    """The area with these records, each of as many of the unsent bytes as its mark says; and what is still unsent."""
    parts = []
    for mark in marks:
        length = int(mark, 16) % 2**11
        parts += [mark, unsent[:length]]
        unsent = unsent[length:]
    return area_of(*parts), unsent


def full_records():
    """It is filled, a put is refused with 5, and it is emptied frame by frame; an IDLE frame then moves nothing."""
    numbers = Numbers(20)
    session = Session(numbers.next(), LAST, 65530)
    packets = []
    yield session.begun()
    for length, _ in FULL:
        seed = numbers.next()
        packets.append(seeded(seed, length))
        yield session.put(length, seed)
    laid = b"".join(written(mark, packet) for (_, mark), packet in zip(FULL, packets))
    ring = laid[1:] + laid[:1]
    assert session.sender == (LAST, QUEUE, 65530)
    yield session.queue_in_full(ring)
    yield session.put(1, numbers.next(), 5)
    unsent = b"".join(packets)
    for marks, start, used, new_mark in EMPTYING:
        before = session.sender
        area, unsent = taken(marks, unsent)
        yield from carried(numbers, session, area)
        assert start == (before.start + before.used - used) % QUEUE
        assert session.sender == (start, used, (before.next + 1) % 2**16)
        ring = ring[:start] + bytes.fromhex(new_mark) + ring[start + len(new_mark) // 2 :]
        assert session.queue == ring
    yield session.queue_in_full(ring)
    yield from idle(numbers, session)


# ---------------------------------------------------------------------------------------------------------------------
# Starts: 32,767 is the last. Some of the others are the same place again, counted round.


NO_STARTS = [QUEUE, QUEUE + 1, QUEUE + LAST, 2**16, 2**32, 2**32 + LAST, 2**63, 2**64 - QUEUE, 2**64 - 1]


def start_records():
    """With 32,767 a packet is taken and the ring filled and sent from; with the starts above it both calls answer 3, also
    with nothing used."""
    numbers = Numbers(21)
    session = Session(numbers.next(), LAST)
    yield session.begun()
    yield from idle(numbers, session)
    yield session.put(300, numbers.next())
    for start in NO_STARTS:
        yield from not_whole_records(numbers, session, session.sender._replace(start=start))
        yield from not_whole_records(numbers, session, session.sender._replace(start=start, used=0))
    # Start and used bytes are 2^64 together.
    yield from not_whole_records(numbers, session, session.sender._replace(start=2**64 - session.sender.used))
    for length in [9000, 9000, 9000, 5458]:
        yield session.put(length, numbers.next())
    assert session.sender == (LAST, QUEUE, 1)
    yield session.next_frame(BENCH_TAPS, some_header(numbers, frames.DATA, numbers.below(9)), full=True)
    assert session.sender == (1905, QUEUE - 1906, 2)


GROUPS = [cut_records, full_records, start_records]
