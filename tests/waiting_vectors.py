"""The vectors of the call that counts what waits, in the records of sender_session.py. How many packets and bytes wait
is written here in numbers, or kept by what was put and sent, and the second coder has to count them too."""

from coder import codes, frames, packing, sender
from frame_vectors import BENCH_TAPS
from header_vectors import some_header
from records import Numbers
from ring_vectors import LAST, NO_STARTS
from sender_session import BUFFER, Session
from sender_vectors import BEGUN, NOT_WHOLE, QUEUE, counts_not_whole, some_start, with_marks

# The marks in the ring, and where it begins; how many packets wait, and how many bytes of them.
WAITING = [
    # Nothing waits, wherever the ring begins.
    ([], 0, 0, 0),
    ([], LAST, 0, 0),
    ([1], 0, 1, 1),
    ([9000], 20000, 1, 9000),
    # A packet that is begun, alone and before others.
    ([BEGUN + 1], 5, 1, 1),
    ([BEGUN + 8999], 0, 1, 8999),
    ([BEGUN + 1, 1], 32000, 2, 2),
    ([BEGUN + 8999, 9000, 9000], 100, 3, 26999),
    # The end parts the first mark, of a packet that is not begun and of one that is; it parts the second mark; it comes
    # before that, and behind it.
    ([1], LAST, 1, 1),
    ([BEGUN + 300, 4, 5], LAST, 3, 309),
    ([6, 300], LAST - 8, 2, 306),
    ([7, 300], LAST - 8, 2, 307),
    ([5, 300], LAST - 8, 2, 305),
    # Full to the last byte; and as many packets as can wait, the first mark parted.
    ([9000, 9000, 9000, 5760], LAST, 4, 32760),
    ([BEGUN + 8999, 9000, 9000, 5761], 12345, 4, 32760),
    ([1] * 10922, LAST, 10922, 10922),
]


def counted_records():
    numbers = Numbers(33)
    session = Session(numbers.next())
    yield session.begun()
    yield session.count(0, 0)
    for marks, start, packets, length in WAITING:
        queue, used = with_marks(session.queue, start, marks)
        session.sender = sender.Sender(start, used, numbers.below(2**16))
        yield session.change(queue)
        yield session.count(packets, length)


# ---------------------------------------------------------------------------------------------------------------------
# Refusals, each alone and both at once.


OTHER_LENGTHS = [0, QUEUE - 1, QUEUE + 1, BUFFER]


def not_counted(session, given):
    """A queue that is not whole with this state; of another length it is refused for that."""
    yield session.count(0, 0, 3, given)
    for lent in OTHER_LENGTHS:
        yield session.count(0, 0, 2, given, lent)


def refused_records():
    numbers = Numbers(34)
    session = Session(numbers.next(), LAST)
    yield session.begun()
    yield session.put(300, numbers.next())
    for lent in OTHER_LENGTHS:
        yield session.count(0, 0, 2, lent=lent)
    for start in NO_STARTS:
        yield from not_counted(session, session.sender._replace(start=start))
        yield from not_counted(session, session.sender._replace(start=start, used=0))
    for count in counts_not_whole(session.sender.used, [3, 150]):
        yield from not_counted(session, session.sender._replace(used=count))
    for marks in NOT_WHOLE:
        start = some_start(numbers)
        queue, used = with_marks(session.queue, start, marks)
        yield session.change(queue)
        yield from not_counted(session, sender.Sender(start, used, numbers.below(2**16)))


# ---------------------------------------------------------------------------------------------------------------------
# A history: what waits is kept by the packets put and by the records sent, and counted after each call.


STEPS = 200


def history_records():
    numbers = Numbers(35)
    session = Session(numbers.next(), LAST - 3000)
    packets, length = 0, 0
    yield session.begun()
    for _ in range(STEPS):
        if numbers.below(100) < 55:
            added = 1 + numbers.below([6, 40, 2000, 9000][numbers.below(4)])
            taken = session.sender.used + packing.MARK + added <= QUEUE
            yield session.put(added, numbers.next(), 0 if taken else 5)
            packets, length = packets + taken, length + added * taken
        else:
            yield session.next_frame(BENCH_TAPS, some_header(numbers, frames.DATA, numbers.below(9)))
            _, header, area, _ = frames.open_frame(BENCH_TAPS, session.frame, codes.AREA)
            records = packing.records_of(area) if header.type == frames.DATA else []
            packets -= sum(last for _, last, _ in records)
            length -= sum(len(record) for _, _, record in records)
        yield session.count(packets, length)


GROUPS = [counted_records, refused_records, history_records]
