"""The vectors of the sender, in the records of sender_session.py: the numbers of 01 that concern sending, queues that
are whole and that are not, and random histories of puts and frames."""

from coder import codes, frames, packing, sender
from frame_vectors import ALL_TAPS, BENCH_TAPS, Sent, opened
from header_vectors import headers_refused, some_header
from records import Numbers
from sender_session import Session, seeded

QUEUE = packing.QUEUE
FRAME = frames.FRAME


# ---------------------------------------------------------------------------------------------------------------------
# 01, Numbers to try. Areas and queues are written here as 01 has them, and the second coder has to find them too.


def written(*parts):
    """Marks in hexadecimal, and the bytes behind them."""
    return b"".join(bytes.fromhex(part) if isinstance(part, str) else part for part in parts)


def area_of(*parts):
    """Records, and zeros to the end."""
    records = written(*parts)
    return records + bytes(codes.AREA - len(records))


def carried(numbers, session, area):
    """A DATA frame in full, and its area."""
    header = some_header(numbers, frames.DATA, numbers.below(9))._replace(txfn=session.sender.next)
    yield session.next_frame(BENCH_TAPS, header, full=True)
    yield opened(Sent(BENCH_TAPS, header, area), session.frame, codes.AREA)


def sending(numbers, lengths, expected):
    """Packets put, and the frames that carry them: of each the area, and what remains, which ends where it ended."""
    session = Session(numbers.next())
    begun = session.queue
    packets = []
    yield session.begun()
    for length in lengths:
        seed = numbers.next()
        packets.append(seeded(seed, length))
        yield session.put(length, seed)
    laid = b"".join(written(f"{len(packet):04X}", packet) for packet in packets)
    behind = begun[len(laid) :]
    yield session.queue_in_full(laid + behind)
    for parts, remains in expected(*packets):
        remaining = written(*remains)
        start = len(laid) - len(remaining)
        laid = laid[:start] + remaining
        yield from carried(numbers, session, area_of(*parts))
        assert session.sender[:2] == (start, len(remaining))
        yield session.queue_in_full(laid + behind)
    yield session.next_frame(BENCH_TAPS, some_header(numbers, frames.IDLE, 8), full=True)
    assert session.sender[:2] == (len(laid), 0)
    yield session.queue_in_full(laid + behind)


def of_9000(packet):
    parts = [packet[k : k + 1906] for k in range(0, 9000, 1906)]
    marks = ["8772", "0772", "0772", "0772", "4560"]
    remains = [["9BB6", packet[1906:]], ["9444", packet[3812:]], ["8CD2", packet[5718:]], ["8560", packet[7624:]], []]
    return [([mark, part], remain) for mark, part, remain in zip(marks, parts, remains)]


def paper_records():
    numbers = Numbers(13)
    yield from sending(numbers, [1], lambda p: [(["C001", p], [])])
    yield from sending(numbers, [1906], lambda p: [(["C772", p], [])])
    yield from sending(numbers, [1907], lambda p: [(["8772", p[:1906]], ["8001", p[1906:]]), (["4001", p[1906:]], [])])
    yield from sending(numbers, [9000], of_9000)
    yield from sending(numbers, [1903, 1], lambda p, q: [(["C76F", p, "C001", q], [])])
    yield from sending(
        numbers, [1903, 2], lambda p, q: [(["C76F", p, "8001", q[:1]], ["8001", q[1:]]), (["4001", q[1:]], [])]
    )
    yield from sending(numbers, [1904, 1], lambda p, q: [(["C770", p, "0000"], ["0001", q]), (["C001", q], [])])
    yield from full_records(numbers)


def full_records(numbers):
    """Three packets of 9,000 use 27,006; a fourth of 5,760 is taken, of 5,761 refused."""
    session = Session(numbers.next())
    begun = session.queue
    seeds = [numbers.next() for _ in range(4)]
    yield session.begun()
    for seed in seeds[:3]:
        yield session.put(9000, seed)
    assert session.sender.used == 27006
    three = b"".join(written("2328", seeded(seed, 9000)) for seed in seeds[:3])
    yield session.put(5761, seeds[3], 5)
    yield session.queue_in_full(three + begun[27006:])
    yield session.put(5760, seeds[3])
    assert session.sender.used == QUEUE
    yield session.queue_in_full(three + written("1680", seeded(seeds[3], 5760)))
    yield session.put(1, seeds[0], 5)
    yield session.next_frame(BENCH_TAPS, some_header(numbers, frames.DATA, 0), full=True)


# ---------------------------------------------------------------------------------------------------------------------
# Queues that are whole, and others that are not.


BEGUN = 2**15
WHOLE = [[], [1], [9000], [BEGUN + 8999], [BEGUN + 1, 1], [BEGUN + 8999, 9000, 9000], [9000, 9000, 9000, 5760]]
NOT_WHOLE = [[9001], [0], [BEGUN], [BEGUN + 9000], [BEGUN + 9001], [1, BEGUN + 1], [5, BEGUN], [5, 0], [5, 9001]]


def with_marks(queue, start, marks):
    """The ring with these marks from a start on, each behind as many bytes as the one before it says; and how many
    bytes they use."""
    used = 0
    for mark in marks:
        queue = packing.written_round(queue, start + used, mark.to_bytes(2, "big"))
        used += 2 + mark % BEGUN
    return queue, used


def some_start(numbers):
    """Anywhere; or near the end, so that it parts the first mark, comes behind it, or parts the first packets."""
    return [numbers.below(QUEUE), QUEUE - 1, QUEUE - 2, QUEUE - 1 - numbers.below(9000)][numbers.below(4)]


def whole_records(numbers, session):
    for marks, start in [(marks, start) for marks in WHOLE for start in [0, QUEUE - 1, some_start(numbers)]]:
        queue, used = with_marks(session.queue, start, marks)
        session.sender = sender.Sender(start, used, numbers.below(2**16))
        yield session.change(queue)
        if used < QUEUE:
            yield session.put(1 + numbers.below(min(9000, QUEUE - 2 - used)), numbers.next())
        yield session.next_frame(numbers.taps(), some_header(numbers, 0, numbers.below(9)))


def counts_not_whole(used, inside):
    """Other counts than the one where the marks end."""
    counts = [1, 2, *inside, used - 1, used + 1, used + 2, QUEUE - 1, QUEUE, QUEUE + 1, 65536, 2**32, 2**64 - 1]
    return counts + [2**16 + used, 2**32 + used, 2**63 + used]


def not_whole_records(numbers, session, given):
    """put and next_frame, also with other things wrong: the lowest number counts."""
    wrong = list(headers_refused(numbers))
    for length, lent, number in [(5, QUEUE, 3), (0, QUEUE, 3), (9001, QUEUE, 3), (5, QUEUE - 1, 2), (0, QUEUE + 1, 2)]:
        yield session.put(length, numbers.next(), number, given, lent)
    header = some_header(numbers, 1, numbers.below(9))
    taps = BENCH_TAPS + 2 * numbers.below(4)
    yield session.next_frame(taps, header, 3, given)
    yield session.next_frame(taps, wrong[numbers.below(len(wrong))], 3, given, room=2100)
    yield session.next_frame(taps, header, 2, given, room=FRAME - 1)
    yield session.next_frame(2 * numbers.below(2**24), header, 1, given, lent=QUEUE + 12)


def judged_records():
    """Queues that are whole, and such as are not by a mark or by the used count."""
    numbers = Numbers(14)
    session = Session(numbers.next())
    yield session.begun()
    yield from whole_records(numbers, session)
    for marks, start in [(marks, start) for marks in NOT_WHOLE for start in [0, some_start(numbers)]]:
        queue, used = with_marks(session.queue, start, marks)
        yield session.change(queue)
        yield from not_whole_records(numbers, session, sender.Sender(start, used, numbers.below(2**16)))
    for start, marks, inside in [(0, [7, 300], [8, 10, 11]), (QUEUE - 20, [BEGUN + 40, 300], [41, 43])]:
        queue, used = with_marks(session.queue, start, marks)
        yield session.change(queue)
        for count in counts_not_whole(used, inside):
            yield from not_whole_records(numbers, session, sender.Sender(start, count, numbers.below(2**16)))


# ---------------------------------------------------------------------------------------------------------------------
# Random histories.


def all_lengths(numbers):
    """Every thirteenth length from 1 to 9,000 and those about the ends of areas, in some order."""
    edges = [n for k in range(1, 5) for n in range(1906 * k - 6, 1906 * k + 6)] + [2, 3, 4, 5, 8998, 8999, 9000]
    lengths = list(range(1, 9001, 13)) + edges
    for last in range(len(lengths) - 1, 0, -1):
        other = numbers.below(last + 1)
        lengths[last], lengths[other] = lengths[other], lengths[last]
    return lengths


class History:
    """One history: what is put next, with which taps, and how eagerly."""

    def __init__(self, numbers, lengths, turn):
        self.numbers = numbers
        self.lengths = lengths
        start = [0, QUEUE - 1, numbers.below(QUEUE)][turn % 3]
        self.session = Session(numbers.next(), start, [0, 65500, numbers.below(2**16)][turn // 3 % 3])
        self.taps = [BENCH_TAPS, numbers.taps(), [1, ALL_TAPS][turn % 2]]
        self.eager = [30, 45, 60, 75][turn % 4]
        self.small = [10, 20, 60][turn % 3]

    def put(self):
        """One of the lengths still to be put, if it fits; or a small one; or one that just fits, or just does not."""
        room = QUEUE - self.session.sender.used - 2
        chance = self.numbers.below(100)
        if chance < 5 and 0 < room < 9000:
            length = room + chance % 2
        elif chance < self.small or not self.lengths:
            length = 1 + self.numbers.below([6, 40, 700][chance % 3])
        else:
            length = self.lengths[-1]
            if length <= room:
                self.lengths.pop()
        return self.session.put(length, self.numbers.next(), 0 if length <= room else 5)

    def header(self):
        """TXFN and type are not the caller's to give, so that any will do."""
        return some_header(self.numbers, self.numbers.below(4), self.numbers.below(9))

    def frame(self, full=False):
        taps = self.taps[self.numbers.below(3)]
        return self.session.next_frame(taps, self.header(), room=FRAME + self.numbers.below(20), full=full)

    def no_state(self):
        """The session's own state, but with too many bytes used, or with a start past the end of the ring; some of the
        starts are the same place again, counted round."""
        own = self.session.sender
        used = [own._replace(used=count) for count in [QUEUE + 1, own.used + 2**32, 2**64 - 1]]
        starts = [own._replace(start=start) for start in [QUEUE, own.start + QUEUE, own.start + 2**32, 2**64 - 1]]
        return (used + starts)[self.numbers.below(7)]

    def refused_put(self):
        """One thing wrong or several; the lowest number counts."""
        other = self.no_state()
        lent = [QUEUE - 1, QUEUE + 1, 0, QUEUE + 12][self.numbers.below(4)]
        length = [0, 9001, 9002, 10000][self.numbers.below(4)]
        fitting = 1 + self.numbers.below(9000)
        case = self.numbers.below(5)
        seed = self.numbers.next()
        if case == 0:
            return self.session.put(fitting, seed, 2, lent=lent)
        if case == 1:
            return self.session.put(length, seed, 2, given=other, lent=lent)
        if case == 2:
            return self.session.put([length, fitting][self.numbers.below(2)], seed, 3, given=other)
        return self.session.put(length, seed, 4)

    def refused_frame(self, wrong):
        taps = [0, 2 * self.numbers.below(2**24), 2**25 + self.taps[1], 2**32 - 1][self.numbers.below(4)]
        sizes = [{"lent": QUEUE - 1}, {"lent": QUEUE + 1}, {"room": FRAME - 1}, {"room": 0}][self.numbers.below(4)]
        other = self.no_state()
        against = wrong[self.numbers.below(len(wrong))]
        header = [self.header(), against][self.numbers.below(2)]
        case = self.numbers.below(5)
        if case == 0:
            return self.session.next_frame(taps, header, 1, **sizes)
        if case == 1:
            return self.session.next_frame(self.taps[1], header, 2, given=other, **sizes)
        if case == 2:
            return self.session.next_frame(self.taps[0], header, 3, given=other)
        return self.session.next_frame(self.taps[0], against, 6)


STEPS = 200
FULL = 20


def history_records():
    """Histories until all lengths are put; each is then drained, and ends in IDLE frames."""
    numbers = Numbers(15)
    lengths = all_lengths(numbers)
    wrong = list(headers_refused(numbers))
    turn, sent = 0, 0
    while lengths:
        history = History(numbers, lengths, turn)
        yield history.session.begun()
        turn, steps, idle = turn + 1, 0, 0
        while steps < STEPS or history.session.sender.used or idle < 2:
            steps += 1
            chance = numbers.below(100)
            if chance < 6:
                yield history.refused_put()
            elif chance < 12:
                yield history.refused_frame(wrong)
            elif steps < STEPS and numbers.below(100) < history.eager:
                yield history.put()
            else:
                idle += history.session.sender.used == 0
                yield history.frame(full=sent % FULL == 0)
                sent += 1
    assert sent > 2000, sent


GROUPS = [paper_records, judged_records, history_records]
