"""A session with the second coder's sender, and the records of its calls.

    16  queue begun    seed 4; the digest of the queue
    17  queue changed  the digest of the queue after the changes, the changes
    18  packet put     the state, the queue's length 2, the packet's length 2, its seed 4; the answer, the digest of the
                       queue
    19  next frame     taps 4, fields, the state, the queue's length 2, the length lent for the frame 2; the answer, the
                       digests of the queue and of what was lent for the frame, the frame or nothing; a frame that was
                       sent is then at hand
    20  queue in full  seed 4, bytes: the queue is these, and behind them it is as from the seed
    33  waiting        the state, the queue's length 2; the refusal's number 1, 0 for none, how many packets wait 8, how
                       many bytes of them 8

A state is the start 8, the used bytes 8 and the number of the next frame 2. An answer is the refusal's number, 0 for
none, the type of the frame that was sent, and the state after the call. Bytes from a seed are those of Numbers. The
fields, TXFN and type among them, which the call does not have, are those of header_vectors.py; changes are those of
frame_vectors.py.

The queue stays from record to record. It is the ring of 32,768 bytes and 12 more behind it, and what is lent for a
frame is a part of 2,100 bytes that hold "kept" again and again. A digest is of all of them, whatever part a call was
lent.
"""

from functools import lru_cache

import records
from coder import frames, packing, sender
from header_vectors import fields
from records import Numbers, changes, record

BUFFER = packing.QUEUE + 12
OUTPUT = (b"kept" * 525)[:2100]


@lru_cache(maxsize=64)
def digest(message):
    return records.digest(message)


@lru_cache(maxsize=64)
def seeded(seed, length):
    return Numbers(seed).bytes(length)


def state(given):
    return given.start.to_bytes(8, "big") + given.used.to_bytes(8, "big") + given.next.to_bytes(2, "big")


def type_of(taps, frame):
    coded, _ = frames.parts_of(taps, frame)
    return frames.header_of(coded[:16]).type


class Session:
    """The state and the queue of the second coder's sender. A call answers with its record, and holds its number to the
    one that is meant."""

    def __init__(self, seed, start=0, next=0):
        self.seed = seed
        self.sender = sender.Sender(start, 0, next)
        self.buffer = seeded(seed, BUFFER)
        self.taps = None
        self.frame = None

    @property
    def queue(self):
        return self.buffer[: packing.QUEUE]

    def begun(self):
        return record(16, self.seed.to_bytes(4, "big"), digest(self.buffer))

    def change(self, queue):
        """The queue's first bytes become others."""
        before, self.buffer = self.buffer, queue + self.buffer[len(queue) :]
        return record(17, digest(self.buffer), changes(before, self.buffer))

    def put(self, length, seed, number=0, given=None, lent=packing.QUEUE):
        """A packet by its length and seed, with the session's own state or another."""
        given = self.sender if given is None else given
        packet = seeded(seed, length)
        found, after, queue = sender.put(self.buffer[:lent], given, packet)
        assert found == number, (found, number, length, given)
        self.buffer = queue + self.buffer[lent:]
        if found == 0:
            self.sender = after
        sizes = lent.to_bytes(2, "big") + length.to_bytes(2, "big") + seed.to_bytes(4, "big")
        return record(18, state(given), sizes, bytes([found, 0]), state(after), digest(self.buffer))

    def count(self, packets, length, number=0, given=None, lent=packing.QUEUE):
        """How many packets wait and how many bytes of them, as they are meant; 0 where the call is refused."""
        given = self.sender if given is None else given
        found = sender.count_waiting(self.buffer[:lent], given)
        assert found == (number, packets, length), (found, number, packets, length, given)
        answer = bytes([number]) + packets.to_bytes(8, "big") + length.to_bytes(8, "big")
        return record(33, state(given), lent.to_bytes(2, "big"), answer)

    def next_frame(self, taps, header, number=0, given=None, lent=packing.QUEUE, room=frames.FRAME, full=False):
        given = self.sender if given is None else given
        found, after, queue, output = sender.next_frame(taps, header, given, self.buffer[:lent], OUTPUT[:room])
        assert found == number, (found, number, taps, header, given)
        self.buffer = queue + self.buffer[lent:]
        output += OUTPUT[room:]
        kind = 0
        if found == 0:
            self.sender = after
            self.taps = taps
            self.frame = output[: frames.FRAME]
            kind = type_of(taps, self.frame)
        sizes = lent.to_bytes(2, "big") + room.to_bytes(2, "big")
        call = taps.to_bytes(4, "big") + fields(header) + state(given) + sizes
        answer = bytes([found, kind]) + state(after)
        shown = self.frame if full else b""
        return record(19, call, answer, digest(self.buffer), digest(output), shown)

    def queue_in_full(self, queue):
        """Every byte of the queue. Behind the last that differs from what it was begun with, the seed says them."""
        begun = seeded(self.seed, BUFFER)
        assert self.buffer == queue + begun[len(queue) :]
        stored = max((place + 1 for place, byte in enumerate(queue) if byte != begun[place]), default=0)
        return record(20, self.seed.to_bytes(4, "big"), queue[:stored])
