"""A session with the second coder's receiver, and the records of its calls.

    21  hold and list begun       their seeds 4 and 4; the digests of hold and list
    22  frame opened and applied  taps 4, the state, the lengths of frame, hold and list 2 each; the answer, the digests
                                  of hold and list; changes to the frame at hand, which then arrives
    23  list changed              the digest of the list after the changes, the changes
    24  list read                 how many bytes are listed 2, the position 8; what stands there, the digest of the
                                  packet
    25  list in full              bytes: the list begins with these
    26  hold in full              bytes: the hold begins with these
    27  area applied              the fields, the state, the lengths of area, hold and list 2 each; the answer, the
                                  digests of hold and list; the area

A state is whether a frame is expected, its number 2, 0 for none, and the bytes held 8. An answer is the refusal's
number, 0 for none, the fields of the header, all 0 where either call refuses, and for an area, whose header is given,
the frames missed 2, the packets 8, the bytes of the list 8, and the state after the call. What stands at a position of
the list is the refusal's number, 1 for a packet and 0 for none, its place, its length and the position after it, 8
each.

A frame that arrives is opened into 2,100 bytes that are lent for its area, and their first 1,908 are applied; where
opening refuses it, nothing is applied. Hold and list stay from record to record. They are 9,000 and 10,907 bytes, and
12 and 13 more behind them; a digest is of all of them, whatever part a call was lent. The frame at hand is that of
frame_vectors.py or of sender_session.py. An area is stored without the zeros at its end. What is lent of it is its
first bytes; behind one that is too long stands what is lent for a frame.
"""

from functools import partial

from coder import codes, receiver
from header_vectors import fields
from records import changes, record
from sender_session import OUTPUT, digest, seeded

HOLD = receiver.HOLD
LIST = receiver.LIST_OUTPUT


def state(given):
    expected = [0, 0] if given.expected is None else [1, given.expected]
    return bytes([expected[0]]) + expected[1].to_bytes(2, "big") + given.held.to_bytes(8, "big")


def numbers_of(*given):
    return b"".join(number.to_bytes(8, "big") for number in given)


def sizes(*lengths):
    return b"".join(length.to_bytes(2, "big") for length in lengths)


def answer_of(number, answer, after, has_header):
    if answer is None:
        return bytes([number]) + bytes(24 + 2 + 16) + state(after)
    header = fields(answer.header) if has_header else bytes(24)
    return bytes([number]) + header + sizes(answer.missed) + numbers_of(answer.packets, answer.listed) + state(after)


class Arrivals:
    """The state, the hold and the list of the second coder's receiver. A call answers with its record, and holds its
    number to the one that is meant."""

    def __init__(self, numbers):
        self.seeds = [numbers.next(), numbers.next()]
        self.receiver = receiver.FRESH
        self.hold = seeded(self.seeds[0], HOLD + 12)
        self.list = seeded(self.seeds[1], LIST + 13)
        self.answer = None

    def begun(self):
        seeds = b"".join(seed.to_bytes(4, "big") for seed in self.seeds)
        return record(21, seeds, digest(self.hold), digest(self.list))

    def called(self, call, length, number, given, hold, listed, has_header):
        """A call with so many bytes, and with the session's own state or another: what the records of both kinds have
        in common."""
        given = self.receiver if given is None else given
        found, self.answer, after, hold_after, list_after = call(given, self.hold[:hold], self.list[:listed])
        assert found == number, (found, number, given)
        self.hold = hold_after + self.hold[hold:]
        self.list = list_after + self.list[listed:]
        if found == 0:
            self.receiver = after
        answer = answer_of(found, self.answer, after, has_header)
        return state(given) + sizes(length, hold, listed) + answer + digest(self.hold) + digest(self.list)

    def open_and_apply(self, taps, at_hand, frame, number=0, given=None, hold=HOLD, listed=LIST):
        """A frame arrives, stored by its differences from the one at hand."""
        call = partial(receiver.open_and_apply, taps, frame)
        rest = self.called(call, len(frame), number, given, hold, listed, True)
        return record(22, taps.to_bytes(4, "big"), rest, changes(at_hand, frame))

    def apply(self, header, area, number=0, given=None, length=codes.AREA, hold=HOLD, listed=LIST):
        """The area of a frame that was opened; so many bytes of it are lent."""
        assert len(area) == codes.AREA
        call = partial(receiver.apply, header, (area + OUTPUT[codes.AREA :])[:length])
        rest = self.called(call, length, number, given, hold, listed, False)
        return record(27, fields(header), rest, area.rstrip(b"\x00"))

    def change_list(self, front):
        before, self.list = self.list, front + self.list[len(front) :]
        return record(23, digest(self.list), changes(before, self.list))

    def read(self, listed, position, number=0):
        """What stands at a position of the first bytes of the list."""
        found, start, length, behind = receiver.entry(self.list[:listed], position)
        assert found == number, (found, number, listed, position)
        packet = receiver.packet(self.list[:listed], position)
        place = numbers_of(0, 0, 0) if start is None else numbers_of(start, length, behind)
        where = listed.to_bytes(2, "big") + position.to_bytes(8, "big")
        return record(24, where, bytes([found, start is not None]), place, digest(packet))

    def read_all(self):
        """Every packet of the last frame, and the end."""
        listed = self.answer.listed
        position = 0
        for packet in receiver.packets_of(self.list[:listed]):
            yield self.read(listed, position)
            position += 2 + len(packet)
        assert position == listed
        yield self.read(listed, position)

    def all_in_full(self):
        """Every packet of the last frame, and every byte of its list and of what is then held."""
        yield from self.read_all()
        yield self.list_in_full()
        yield self.hold_in_full()

    def list_in_full(self):
        return record(25, self.list[: self.answer.listed])

    def hold_in_full(self):
        return record(26, self.hold[: self.receiver.held])
