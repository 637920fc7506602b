"""The vectors of the receiver, in the records of receiver_session.py: the numbers of 01 that concern receiving, lists
that are read, and random histories in which frames of the second coder's sender are lost, damaged, or arrive."""

from coder import codes, frames, packing, receiver
from damage import OF_THE_FRAME, damaged, little_damage, some_damage
from frame_vectors import BENCH_TAPS, Sent, with_reserved
from header_vectors import fields, some_header
from receiver_session import HOLD, LIST, Arrivals
from records import Numbers, changed, record
from sender_session import OUTPUT
from sender_vectors import History, all_lengths, area_of

AREA = codes.AREA
FRAME = frames.FRAME
Receiver = receiver.Receiver


# ---------------------------------------------------------------------------------------------------------------------
# 01, Numbers to try; and the longest sums and lists.


def arriving(numbers, arrivals, txfn, area, frame_type=frames.DATA, **given):
    """A frame in full, which then arrives."""
    header = some_header(numbers, frame_type, numbers.below(9))._replace(txfn=txfn)
    frame = Sent(BENCH_TAPS, header, area).frame
    yield record(13, BENCH_TAPS.to_bytes(4, "big"), fields(header), frame, area)
    yield arrivals.open_and_apply(BENCH_TAPS, frame, frame, **given)
    if arrivals.answer is not None:
        yield from arrivals.all_in_full()


def missed_records(numbers, arrivals):
    """Expected 0, arrived 65,535: missed 65,535, and a held part is dropped, whatever the type."""
    one = area_of("4001", b"\xbb", "C001", b"\xaa")
    for frame_type in range(4):
        yield from arriving(numbers, arrivals, 65535, one, frame_type, given=Receiver(0, 100))
        assert arrivals.answer.missed == 65535 and arrivals.receiver == Receiver(0, 0)
        assert arrivals.list[:3] == bytes.fromhex("0001AA") or frame_type != frames.DATA


def longest_records(numbers, arrivals):
    """The list of 10,907 bytes; a byte less of it is refused, and a byte more of the packet."""
    byte, packet, two = numbers.bytes(1), numbers.bytes(1903), numbers.bytes(2)
    longest = area_of("4001", byte, "C76F", packet)
    held = arrivals.hold[:8999]
    yield from arriving(numbers, arrivals, 7, longest, given=Receiver(7, 8999))
    assert arrivals.list[:LIST] == bytes.fromhex("2328") + held + byte + bytes.fromhex("076F") + packet
    yield from arriving(numbers, arrivals, 7, longest, given=Receiver(7, 8999), listed=LIST - 1, number=2)
    yield from arriving(numbers, arrivals, 7, longest, given=Receiver(7, 9000), number=3)
    yield from arriving(numbers, arrivals, 7, area_of("4002", two, "C001", byte), given=Receiver(7, 8999), number=15)
    whole = area_of("0772", numbers.bytes(1906))
    for expected in [7, None]:
        yield from arriving(numbers, arrivals, 7, whole, given=Receiver(expected, 7094), number=15)
        yield from arriving(numbers, arrivals, 7, whole, given=Receiver(expected, 7093))
    yield from arriving(numbers, arrivals, 7, whole, given=Receiver(6, 7094))


def rule_records(numbers, arrivals):
    """Areas that keep the packing rules only just, and areas against them."""
    byte, long = numbers.bytes(1), numbers.bytes(1906)
    held = Receiver(7, 20)
    alone = [["C001", byte], ["C771", long[1:]], ["C770", long[2:]]]
    for parts in alone + [["4001", byte, "C001", byte], ["C76F", long[3:], "8001", byte]]:
        yield from arriving(numbers, arrivals, 7, area_of(*parts), given=held)
    cut_off = [["8005", long[:5]], ["8770", long[2:]], ["8771", long[1:]]]
    for parts in [[], *cut_off, ["C001", byte, "0000", byte], ["4001", byte, "0001", byte]]:
        yield from arriving(numbers, arrivals, 7, area_of(*parts), given=held, number=14)
    for parts in alone:
        yield from arriving(numbers, arrivals, 7, area_of(*parts)[:-1] + b"\x01", given=held, number=14)


def joined_records(numbers, arrivals):
    """A packet of 9,000 over five frames, and again with the third missing: nothing of it comes out."""
    packet = numbers.bytes(9000)
    marks = ["8772", "0772", "0772", "0772", "4560"]
    areas = [area_of(mark, packet[1906 * k : 1906 * k + 1906]) for k, mark in enumerate(marks)]
    for missing in [None, 2]:
        arrivals.receiver = receiver.FRESH
        for k, area in enumerate(areas):
            if k != missing:
                yield from arriving(numbers, arrivals, (65534 + k) % 2**16, area)
        assert arrivals.answer.packets == (missing is None)


def paper_records():
    numbers = Numbers(16)
    arrivals = Arrivals(numbers)
    yield arrivals.begun()
    yield from missed_records(numbers, arrivals)
    yield from longest_records(numbers, arrivals)
    yield from rule_records(numbers, arrivals)
    yield from joined_records(numbers, arrivals)


# ---------------------------------------------------------------------------------------------------------------------
# Reading lists, also such as no frame gives.


def list_records():
    numbers = Numbers(17)
    arrivals = Arrivals(numbers)
    yield arrivals.begun()
    front = bytes.fromhex("0001AA 0002BBCC 0000 2329")
    yield arrivals.change_list(front)
    for listed, position, number in [(0, 0, 0), (3, 0, 0), (3, 3, 0), (7, 3, 0), (7, 7, 0), (9, 7, 16), (9, 9, 0)]:
        yield arrivals.read(listed, position, number)
    for listed, position in [(0, 1), (3, 4), (6, 3), (4, 3), (5, 3), (1, 0), (2, 0), (7, 8), (8, 7), (9, 8), (LIST, 9)]:
        yield arrivals.read(listed, position, 16)
    for position in [LIST + 1, 2**16, 2**32, 2**63, 2**64 - 2, 2**64 - 1]:
        yield arrivals.read(LIST, position, 16)
    for length, number in [(1, 0), (9000, 0), (9001, 16), (10905, 16), (0, 16), (65535, 16)]:
        yield arrivals.change_list(length.to_bytes(2, "big"))
        yield arrivals.read(LIST, 0, number)
        yield arrivals.read(2 + length if length <= 9000 else 9003, 0, number)
        yield arrivals.read(min(1 + length, LIST), 0, 16)
    for _ in range(200):
        listed = numbers.below(LIST + 1)
        position = numbers.below(listed + 2)
        number, _, _, _ = receiver.entry(arrivals.list[:listed], position)
        yield arrivals.read(listed, position, number)


# ---------------------------------------------------------------------------------------------------------------------
# Random histories.


def against_the_rules(numbers, area):
    """The area with a few bytes changed, against the packing rules."""
    return [
        changed(area, 0, [0x08, 0x10, 0x20, 0x38][numbers.below(4)]),
        bytes.fromhex(["C000", "8000", "4000"][numbers.below(3)]) + area[2:],
        bytes.fromhex(["C7FF", "C773", "8773", "0773"][numbers.below(4)]) + area[2:],
        bytes.fromhex("C001AA4001") + area[5:],
        bytes.fromhex("8001AAC001") + area[5:],
        bytes.fromhex("0000") + area[2:],
    ][numbers.below(6)]


class Passage:
    """What befalls a frame between the two ends."""

    def __init__(self, numbers, history):
        self.numbers = numbers
        self.history = history
        self.arrivals = Arrivals(numbers)

    def sent(self):
        """The frame that was sent, taken apart."""
        self.at_hand = self.history.session.frame
        self.taps = self.history.session.taps
        coded, payload = frames.parts_of(self.taps, self.at_hand)
        self.header = frames.header_of(coded[:16])
        self.area = payload[:AREA]

    def arrives(self, frame=None, number=0, taps=None, **given):
        frame = self.at_hand if frame is None else frame
        taps = self.taps if taps is None else taps
        return self.arrivals.open_and_apply(taps, self.at_hand, frame, number, **given)

    def with_damage(self):
        """One or two of the numbers from 7 to 13: the first in opening's order stands."""
        damage = some_damage(self.numbers)
        first = self.numbers.below(len(OF_THE_FRAME))
        second = first + self.numbers.below(len(OF_THE_FRAME) - first)
        chosen = [damage[OF_THE_FRAME[place]] for place in {first, second}]
        return damaged(Sent(self.taps, self.header, self.area), chosen), OF_THE_FRAME[first]

    def wrong_argument(self):
        """1, 2 or 3, of a frame that may be damaged as well. Opening judges taps, length and damage, before applying is
        asked of hold, list and state (02, M-106)."""
        frame, damage = [(self.at_hand, 0), self.with_damage()][self.numbers.below(2)]
        held = Receiver(self.header.txfn, [9000, 2**16, 2**64 - 1][self.numbers.below(3)])
        sizes = [{"hold": HOLD - 1}, {"hold": HOLD + 1}, {"hold": 0}, {"listed": LIST - 1}, {"listed": 0}]
        size = sizes[self.numbers.below(5)]
        other = (frame + OUTPUT[FRAME:])[: [0, FRAME - 1, FRAME + 1, 2100][self.numbers.below(4)]]
        taps = [0, self.taps - 1, self.taps + 2**25, 2**32 - 1][self.numbers.below(4)]
        case = self.numbers.below(5)
        if case == 0:
            return self.arrives(frame, 1, taps, given=held, **size)
        if case == 1:
            return self.arrives(frame, damage or 2, given=held, **size)
        if case == 2:
            return self.arrives(other, 2)
        return self.arrives(frame, damage or 3, given=held)

    def other_type(self, area=None):
        """Another type, or DATA against the rules."""
        if area is not None:
            return self.arrives(frames.build(self.taps, self.header._replace(type=frames.DATA), area), 14)
        other = self.header._replace(type=[0, 2, 3][self.numbers.below(3)])
        return self.arrives(frames.build(self.taps, other, self.area))

    def most_held(self):
        """Where the first record lacks "first": how many bytes may be held before it. Otherwise none."""
        records = packing.records_of(self.area) if self.header.type == frames.DATA else None
        if not records or records[0][0]:
            return None
        _, last, data = records[0]
        return (9000 if last else 8999) - len(data)

    def arrives_whole(self):
        """In one of eight the reserved bits are another maker's (02, M-100), and in one of eight some bytes are wrong,
        not too many (02, M-101). Where part of a packet came as another type, the next part may be joined to what was
        held, and pass 9,000."""
        frame, odd = self.at_hand, self.numbers.below(8)
        if odd == 0:
            frame = with_reserved(self.taps, frame, self.numbers.below(frames.ALL_ONES + 1))
        elif odd == 1:
            damage, _ = little_damage(self.numbers)
            frame = damaged(Sent(self.taps, self.header, self.area), damage)
        most, own = self.most_held(), self.arrivals.receiver
        is_15 = most is not None and own.expected in (None, self.header.txfn) and own.held > most
        return self.arrives(frame, 15 if is_15 else 0)

    def past_9000(self):
        """Held parts with which the first record just passes the limit, or just does not. The session then goes on with
        its own state."""
        most = self.most_held()
        if most is None:
            return
        expected = [self.header.txfn, None][self.numbers.below(2)]
        own = self.arrivals.receiver
        if most < 8999:
            passing = most + 1 + self.numbers.below(min(3, 8999 - most))
            yield self.arrives(number=15, given=Receiver(expected, passing))
        yield self.arrives(given=Receiver(expected, most))
        yield from self.read()
        self.arrivals.receiver = own

    def fate(self):
        """What becomes of the frame, as records."""
        chance = self.numbers.below(100)
        if chance < 10:
            return
        if chance < 20:
            frame, number = self.with_damage()
            yield self.arrives(frame, number)
            if chance < 15:
                return
        elif chance < 24:
            yield self.wrong_argument()
        elif chance < 28:
            yield self.other_type(against_the_rules(self.numbers, self.area))
        elif chance < 31:
            yield self.other_type()
            return
        elif chance < 34:
            yield from self.past_9000()
        yield self.arrives_whole()
        if chance >= 98:
            yield from self.read()
            yield self.arrives_whole()

    def read(self):
        answer = self.arrivals.answer
        if answer is not None and answer.packets:
            yield from self.arrivals.read_all()


FULL = 30


def passage_records():
    """Histories of a sender, and what befalls its frames; the number of the next frame is sometimes set anew."""
    numbers = Numbers(18)
    lengths = all_lengths(numbers)
    turn, arrived = 0, 0
    while lengths:
        history = History(numbers, lengths, turn)
        passage = Passage(numbers, history)
        yield history.session.begun()
        yield passage.arrivals.begun()
        steps, turn = 0, turn + 1
        while steps < 200 or history.session.sender.used:
            steps += 1
            if steps < 200 and numbers.below(100) < history.eager:
                yield history.put()
                continue
            if numbers.below(40) == 0:
                history.session.sender = history.session.sender._replace(next=numbers.below(2**16))
            yield history.frame()
            passage.sent()
            for one in passage.fate():
                yield one
                arrived += one[0] == 22
            yield from passage.read()
            if arrived % FULL == 0 and passage.arrivals.answer is not None:
                yield passage.arrivals.list_in_full()
    assert arrived > 2000, arrived


GROUPS = [paper_records, list_records, passage_records]
