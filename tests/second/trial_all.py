"""Runs the trial of every module, then random sessions with losses and damage from a sender to a receiver.

Demand 3 in our words, opening and applying taken as one (request M-106): each frame that arrives with at most 8 wrong
bytes in the header and in each payload word, the preamble intact, is accepted (M-101); a packet comes out exactly if
every frame from the one with its first byte to the one with its last was accepted; packets come out in order, once,
unaltered.
"""

import random
import time

import codes
import frames
import listing
import nearest
import packing
import receiver
import repairing
import sender

SESSION = 300


def random_message(chance):
    """Any message that may be sent."""
    kind = chance.randrange(9)
    if kind == frames.ABSENT:
        return frames.Message(kind, ())
    if kind == frames.RESERVED:
        return frames.Message(kind, (chance.randrange(7, 15),))
    numbers = [chance.randrange(2 ** width) for width in frames.WIDTHS[kind]]
    if kind in frames.WITH_LOCK:
        numbers[-1] = chance.randrange(2)
    return frames.Message(kind, tuple(numbers))


def random_fields(chance):
    """Any fields that may be sent; TXFN and type are the sender's own."""
    valid = chance.randrange(2)
    rxfn = chance.randrange(65536) if valid else 0
    stamp, seconds, applies = chance.randrange(2 ** 40), chance.randrange(64), chance.randrange(8)
    return frames.Header(0, 0, rxfn, chance.randrange(2), valid, stamp, seconds, applies, random_message(chance))


def random_packet(chance):
    """A packet of a length that is short, near an area's end, or long."""
    lengths = [range(1, 40), range(1890, 1915), range(1, 4000), range(8990, 9001)]
    return chance.randbytes(chance.choice(chance.choice(lengths)))


def little_damage(chance, frame):
    """The frame with up to 8 wrong bytes in some of its nine words, or in all."""
    for word in chance.sample(range(9), chance.choice([1, 1, 2, 9])):
        error = nearest.some_error(chance, repairing.length_of(word), chance.randrange(nearest.MOST_WRONG + 1))
        frame = repairing.added_to_word(frame, word, error)
    return frame


def much_damage(chance, frame):
    """The frame with a wrong preamble, cut short, or with 9 wrong bytes or more in one of its nine words."""
    fate = chance.randrange(5)
    if fate == 0:
        return frame[:chance.randrange(len(frame))]
    if fate == 1:
        return frames.damaged(frame, chance.randrange(len(frames.PREAMBLE)))
    word = chance.randrange(9)
    error = nearest.some_error(chance, repairing.length_of(word), chance.choice([9, 9, 10, 20]))
    return repairing.added_to_word(frame, word, error)


class SendingEnd:
    """A sender, the packets it was given, and in which frames each packet has its first and its last byte."""

    def __init__(self, chance, taps):
        self.chance = chance
        self.taps = taps
        # Begun near both ends, so that the session passes 65,535 and the ring's last byte.
        self.state = sender.Sender(chance.randrange(packing.QUEUE - 9000, packing.QUEUE), 0, 65400)
        self.queue = chance.randbytes(packing.QUEUE)
        self.given = []
        self.first_frame = {}
        self.last_frame = {}

    def give(self):
        """Puts a packet; one that is refused must be refused for want of room."""
        packet = random_packet(self.chance)
        room = packing.QUEUE - self.state.used
        number, self.state, self.queue = sender.put(self.queue, self.state, packet)
        codes.all_same([("a put", number, 0 if len(packet) + 2 <= room else 5)])
        if number == 0:
            self.given.append(packet)

    def send(self, place):
        """The frame of this place; what left the queue with it tells which packets have bytes in it."""
        before = sender.waiting(self.queue, self.state)
        output = self.chance.randbytes(frames.FRAME)
        number, self.state, self.queue, frame = sender.next_frame(
            self.taps, random_fields(self.chance), self.state, self.queue, output)
        codes.all_same([("a frame built", number, 0)])
        after = sender.waiting(self.queue, self.state)
        oldest = len(self.given) - len(before)
        still = len(self.given) - len(after)
        for packet in range(oldest, still):
            self.first_frame.setdefault(packet, place)
            self.last_frame[packet] = place
        if after and after[0][0]:
            self.first_frame.setdefault(still, place)
        return frame

    def due(self, accepted):
        """The packets whose every frame is among the accepted ones, in order."""
        return [
            self.given[packet] for packet, last in sorted(self.last_frame.items())
            if all(place in accepted for place in range(self.first_frame[packet], last + 1))
        ]


class ReceivingEnd:
    """A receiver, the frames it accepted, and the packets that came out."""

    def __init__(self, chance, taps):
        self.taps = taps
        self.state = receiver.FRESH
        self.hold = chance.randbytes(receiver.HOLD)
        self.output = chance.randbytes(receiver.LIST_OUTPUT + 5)
        self.accepted = []
        self.came_out = []

    def take(self, place, frame):
        """A frame as it was sent, or damaged little: it must be accepted, and the frames since the last accepted one
        are missed."""
        number, answer, self.state, self.hold, self.output = receiver.open_and_apply(
            self.taps, frame, self.state, self.hold, self.output)
        codes.all_same([("a frame that arrives, damaged little or not", number, 0)])
        missed = place - self.accepted[-1] - 1 if self.accepted else 0
        listed = receiver.packets_of(self.output[:answer.listed])
        codes.all_same([("missed", answer.missed, missed), ("packets", len(listed), answer.packets)])
        self.accepted.append(place)
        self.came_out += listed

    def refuse(self, spoiled):
        """A damaged frame: it must be refused, and nothing may change."""
        before = (None, self.state, self.hold, self.output)
        number, *after = receiver.open_and_apply(self.taps, spoiled, self.state, self.hold, self.output)
        codes.all_same([("a damaged frame is refused", number != 0, True), ("unchanged", tuple(after), before)])


def session(seed, taps):
    """One session of 300 frames; gives the packets given, those that came out, and the frames accepted."""
    chance = random.Random(seed)
    sending, receiving = SendingEnd(chance, taps), ReceivingEnd(chance, taps)
    for place in range(SESSION):
        # In turn a stretch with many packets and one with few, so that the queue is full at times and empty at times.
        while chance.randrange(100) < (60 if (place // 50) % 2 == 0 else 10):
            sending.give()
        frame = sending.send(place)
        fate = chance.randrange(100)
        if fate < 66:
            receiving.take(place, frame)
        elif fate < 86:
            receiving.take(place, little_damage(chance, frame))
        elif fate < 93:
            receiving.refuse(much_damage(chance, frame))
    codes.all_same([("packets that came out", receiving.came_out, sending.due(set(receiving.accepted)))])
    return len(sending.given), len(receiving.came_out), len(receiving.accepted)


def main():
    """All trials, with a count and a time for each."""
    for module in [codes, nearest, frames, repairing, packing, sender, receiver, listing]:
        begun = time.perf_counter()
        count = module.own_trial()
        print(f"{module.__name__}: {count} tried, {time.perf_counter() - begun:.2f} s")
    for seed, taps in [(1, 0b1001), (2, 2 ** 25 - 1), (3, 1)]:
        begun = time.perf_counter()
        given, came_out, accepted = session(seed, taps)
        print(f"session {seed}: {SESSION} frames, {accepted} accepted, {given} packets, {came_out} came out, "
              f"{time.perf_counter() - begun:.2f} s")


if __name__ == "__main__":
    main()
