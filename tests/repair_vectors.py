"""The vectors of repair: frames with wrong bytes opened, and the calls `repair` and `shown`.

    35  part repaired  taps 4, the lengths of part and scratch 2 each; the refusal's number, 0 for none, how many bytes
                       were repaired 1, the digests of the scratch and of what is then shown; changes to the frame at
                       hand, whose bytes behind the preamble are the part
    36  part shown     the refusal's number, 0 for none, how many bytes were repaired 1, the lengths of part and scratch
                       2 each; the digest of what is shown after this answer

The scratch, and what it is a part of, are 2,100 bytes that hold "kept" again and again; the digest after a call is of
all of them. A part that is too long goes on with what is lent behind a frame. Changes, and the records of frames, are
those of frame_vectors.py; a frame with wrong bytes comes in the place of the one at hand before it is opened.
"""

from itertools import combinations

from coder import codes, frames, nearest, repairing
from damage import MOST_WRONG, NINE_WORDS, OF_THE_FRAME, add, damaged, hopeless_error, length_of, little_damage
from damage import some_damage, some_error
from frame_vectors import ALL_TAPS, AREA, BENCH_TAPS, FRAME, Sent, changed_to, opened, refused, whole
from header_vectors import some_header
from records import Numbers, changes, digest, record
from sender_session import OUTPUT

PART = frames.PART
PREAMBLE = len(frames.PREAMBLE)


def part_of(frame, length=PART):
    """So many bytes from the preamble's end on."""
    return (frame + OUTPUT[FRAME:])[PREAMBLE : PREAMBLE + length]


def repaired(meant, at_hand, taps, frame, length=PART, room=PART):
    """The number and the count are those that are meant; the second coder has to find them too."""
    part = part_of(frame, length)
    number, count, scratch = repairing.repair(taps, part, OUTPUT[:room])
    assert (number, count) == meant, (number, count, meant)
    shown = repairing.shown(number, count, part, scratch)
    lent = taps.to_bytes(4, "big") + length.to_bytes(2, "big") + room.to_bytes(2, "big")
    digests = digest(scratch + OUTPUT[room:]) + digest(shown)
    return record(35, lent, bytes([number, count]), digests, changes(at_hand, frame))


def part_shown(at_hand, number, count, length, room):
    """Any answer, whether or not these bytes would have led to it."""
    shown = repairing.shown(number, count, part_of(at_hand, length), OUTPUT[:room])
    lent = length.to_bytes(2, "big") + room.to_bytes(2, "big")
    return record(36, bytes([number, count]), lent, digest(shown))


class Beside:
    """A frame that was sent, and the frame at hand, which is that one or has wrong bytes."""

    def __init__(self, numbers, taps, turn):
        self.sent = Sent(taps, some_header(numbers, turn % 4, turn % 9), numbers.bytes(1 + 7 * (turn % 6)))
        self.at_hand = self.sent.frame

    def begun(self):
        return whole(self.sent, AREA)

    def accepted(self, damage, count, room=AREA):
        """A frame with as many wrong bytes as are said, and not too many: opened, and its part repaired."""
        frame = damaged(self.sent, damage)
        yield changed_to(self.at_hand, frame)
        self.at_hand = frame
        yield opened(self.sent, frame, room, count)
        yield repaired((0, count), frame, self.sent.taps, frame)

    def refused(self, number, of_the_part, damage, room=AREA):
        """A frame that opening refuses with this number, and what repairing its part answers."""
        frame = damaged(self.sent, damage)
        yield refused(number, self.at_hand, self.sent.taps, frame, room)
        yield repaired(of_the_part, self.at_hand, self.sent.taps, frame)


# ---------------------------------------------------------------------------------------------------------------------
# Wrong bytes that are repaired.


def count_records():
    """02, M-101: 0 to 8 wrong bytes in each of the nine words, then in all of them, up to 72; at the ends of the words
    as well as anywhere."""
    numbers = Numbers(41)
    for turn, taps in enumerate([1, BENCH_TAPS, ALL_TAPS, numbers.taps(), numbers.taps()]):
        beside = Beside(numbers, taps, turn)
        yield from beside.begun()
        for count in range(MOST_WRONG + 1):
            everywhere = []
            for word in NINE_WORDS:
                ends = [None, range(8), range(length_of(word) - 8, length_of(word))][(turn + word) % 3]
                damage = add(word, some_error(numbers, word, count, ends))
                everywhere.append(damage)
                yield from beside.accepted([damage], count)
            yield from beside.accepted(everywhere, 9 * count)


def place_records():
    """Each byte of the coded header wrong alone, and of the payload bytes in every word: at the ends, where the area
    and where the data end, and between."""
    numbers = Numbers(42)
    beside = Beside(numbers, numbers.taps(), 6)
    yield from beside.begun()
    for place in range(frames.CODED_HEADER):
        yield from beside.accepted([add(8, some_error(numbers, 8, 1, [place]))], 1)
    for place in [0, 7, 8, 1000, AREA - 1, AREA, codes.PAYLOAD_DATA - 1, codes.PAYLOAD_DATA, codes.PAYLOAD - 1]:
        word = place % codes.WORDS
        yield from beside.accepted([add(word, some_error(numbers, word, 1, [place // codes.WORDS]))], 1)


def little_records():
    """Wrong bytes in some words or in all, with taps, types and kinds of message of all sorts; more room for the area
    than it needs."""
    numbers = Numbers(43)
    for turn in range(30):
        beside = Beside(numbers, [numbers.taps(), 1 + 2 ** (1 + turn % 24)][turn % 2], turn)
        yield from beside.begun()
        damage, count = little_damage(numbers)
        yield from beside.accepted(damage, count, [AREA, AREA + 1, 2000, 2100][turn % 4])


# ---------------------------------------------------------------------------------------------------------------------
# Wrong bytes that are too many, and what is wrong beside.


def order_records():
    """Every choice of the numbers from 7 to 13 again, with up to 8 wrong bytes in the words beside: the first in
    opening's order stands, 9 and 11 of the repaired header before 12. Repair judges neither preamble nor check sum."""
    numbers = Numbers(44)
    beside = Beside(numbers, BENCH_TAPS, 5)
    yield from beside.begun()
    for choice in [choice for count in range(1, 7) for choice in combinations(OF_THE_FRAME, count)]:
        word = numbers.below(codes.WORDS)
        damage = some_damage(numbers) | {12: add(word, hopeless_error(numbers, word))}
        hopeless = [8] * (8 in choice) + [word] * (12 in choice)
        little, count = little_damage(numbers, but=hopeless)
        of_the_part = (8, 0) if 8 in choice else (12, 0) if 12 in choice else (0, count)
        yield from beside.refused(choice[0], of_the_part, [damage[number] for number in choice] + little)


def nine_records():
    """9 to 40 wrong bytes of one word, 8 of the others or none. The number is what the second coder finds: as a rule 8
    or 12, and where another codeword is near, that of a check sum."""
    numbers = Numbers(45)
    beside = Beside(numbers, numbers.taps(), 7)
    yield from beside.begun()
    for turn, word in enumerate([*NINE_WORDS] * 6):
        count = [9, 9, 9, 10, 17, 32][turn // 9]
        error = some_error(numbers, word, count)
        others = [add(other, some_error(numbers, other, 8 * (turn % 2))) for other in NINE_WORDS if other != word]
        frame = damaged(beside.sent, [add(word, error), *others])
        number = frames.open_frame(beside.sent.taps, frame, AREA)[0]
        assert number in ([8, 9] if word == 8 else [12, 13]), number
        of_the_part = repairing.repair(beside.sent.taps, part_of(frame), OUTPUT)[:2]
        yield from beside.refused(number, of_the_part, [add(word, error), *others])


def between_records():
    """Between two codewords that differ in 17 bytes: up to 8 of them lead back, and 9 or more to the other word, which
    is right for repair; a check sum then refuses the frame."""
    numbers = Numbers(46)
    for turn, word in enumerate([8, 0, 3, 7]):
        beside = Beside(numbers, [BENCH_TAPS, ALL_TAPS][turn % 2], turn)
        yield from beside.begun()
        start = codes.WORD - length_of(word)
        places = sorted(some_places(numbers, range(start, codes.WORD), 17))
        other = nearest.least_codeword(places)
        for count in [7, 8, 9, 10, 16, 17]:
            kept = some_places(numbers, places, count)
            error = bytes(byte if place in kept else 0 for place, byte in enumerate(other))[start:]
            if count <= MOST_WRONG:
                yield from beside.accepted([add(word, error)], count)
            else:
                yield from beside.refused(9 if word == 8 else 13, (0, 17 - count), [add(word, error)])


def some_places(numbers, places, count):
    places = list(places)
    return [places.pop(numbers.below(len(places))) for _ in range(count)]


def unsent_records():
    """A codeword with a byte among the 223 that are not sent, and 16 among the others: 9 of these or more are near it,
    and near no word with zeros unsent. That is 8, also where a single unsent byte would make it a codeword."""
    numbers = Numbers(47)
    beside = Beside(numbers, numbers.taps(), 2)
    yield from beside.begun()
    for unsent in [0, 100, 222]:
        sent = some_places(numbers, range(223, 255), 16)
        other = nearest.least_codeword([unsent, *sent])
        for count in [7, 8, 9, 12, 15, 16]:
            error = bytes(byte if place in sent[:count] else 0 for place, byte in enumerate(other))[223:]
            if count <= MOST_WRONG:
                yield from beside.accepted([add(8, error)], count)
            else:
                yield from beside.refused(8, (8, 0), [add(8, error)])


# ---------------------------------------------------------------------------------------------------------------------
# What is lent.


def argument_records():
    """1 and 2 of repair alone, before each other and before what the bytes decide; scratches longer than is needed."""
    numbers = Numbers(48)
    beside = Beside(numbers, BENCH_TAPS, 3)
    yield from beside.begun()
    taps, clean = beside.sent.taps, beside.sent.frame
    six_of_a_word = add(2, some_error(numbers, 2, 6))
    three_of_the_header = add(8, some_error(numbers, 8, 3))
    no_header, no_word = (add(word, hopeless_error(numbers, word)) for word in [8, 6])
    for damage, answer in [
        ([], (0, 0)),
        ([six_of_a_word, three_of_the_header], (0, 9)),
        ([six_of_a_word, no_header], (8, 0)),
        ([three_of_the_header, no_word], (12, 0)),
        ([no_header, no_word], (8, 0)),
    ]:
        frame = damaged(beside.sent, damage)
        for wrong in [0, taps - 1, 2**25, taps + 2**25, 2**32 - 1]:
            yield repaired((1, 0), clean, wrong, frame)
            yield repaired((1, 0), clean, wrong, frame, PART - 1, PART - 1)
        for length, room in [(PART - 1, PART), (PART + 1, 2100), (0, PART), (PART, PART - 1), (PART, 0), (2071, 2071)]:
            yield repaired((2, 0), clean, taps, frame, length, room)
        for room in [PART, PART + 1, 2100]:
            yield repaired(answer, clean, taps, frame, PART, room)


def shown_records():
    """What is shown after every sort of answer, with parts and scratches of many lengths."""
    numbers = Numbers(49)
    beside = Beside(numbers, BENCH_TAPS, 4)
    yield from beside.begun()
    for number, count in [(0, 0), (0, 1), (0, 8), (0, 72), (0, 255), (1, 0), (2, 0), (8, 0), (12, 0), (255, 0)]:
        for length in [0, 1, PART - 1, PART, PART + 1]:
            for room in [0, PART - 1, PART, PART + 1, 2100]:
                yield part_shown(beside.sent.frame, number, count, length, room)


GROUPS = [
    count_records, place_records, little_records, order_records, nine_records, between_records, unsent_records,
    argument_records, shown_records,
]
