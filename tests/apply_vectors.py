"""The vectors of `apply`, in records of receiver_session.py: the areas of opened frames of all four types; every
refusal of the call alone and with others, also of headers that no opening gives, and behind those of opening; and
random sessions."""

from itertools import combinations, product

from coder import codes, frames, packing, receiver
from damage import OF_THE_FRAME, damaged, little_damage, some_damage
from frame_vectors import BENCH_TAPS, Sent, whole
from header_vectors import EDGES, KINDS, TYPES, headers_refused, one_bit_headers, some_header
from receiver_session import HOLD, LIST, Arrivals
from receiver_vectors import against_the_rules
from records import Numbers
from sender_vectors import area_of

AREA = codes.AREA
Receiver = receiver.Receiver


# ---------------------------------------------------------------------------------------------------------------------
# Accepted: what apply does is decided by the number, the type, the area and the state alone.


def states(txfn, held):
    """The frame is the one expected; none is expected, also where a part is held, which no run reaches; some missed."""
    yield from [receiver.FRESH, Receiver(txfn, 0), Receiver(txfn, held), Receiver(None, held)]
    yield from [Receiver((txfn + 1) % 2**16, held), Receiver((txfn - 7) % 2**16, held), Receiver(txfn ^ 2**15, 0)]


def areas(numbers, kind):
    """A packet's end and a packet; a packet and no end; of one kind of message also a part that goes on, and an end
    before a begin."""
    yield area_of("4003", numbers.bytes(3), "C001", numbers.bytes(1))
    yield area_of("C004", numbers.bytes(4))
    if kind == 5:
        yield area_of("0772", numbers.bytes(1906))
        yield area_of("4004", numbers.bytes(4), "876C", numbers.bytes(1900))


def typed_records():
    """DATA with each state and area. Of another type no area is looked into, whatever it holds: zeros, bytes against
    the rules, a record that would pass 9,000."""
    numbers = Numbers(22)
    arrivals = Arrivals(numbers)
    yield arrivals.begun()
    for kind in KINDS:
        header = some_header(numbers, frames.DATA, kind)
        for area in areas(numbers, kind):
            for given in states(header.txfn, 1 + numbers.below(7000)):
                yield arrivals.apply(header, area, given=given)
        yield from arrivals.all_in_full()
        for other in [frames.IDLE, 2, 3]:
            for area in [area_of(), area_of("4002", numbers.bytes(2)), area_of(numbers.bytes(7))]:
                given = list(states(header.txfn, 8999))[numbers.below(7)]
                yield arrivals.apply(header._replace(type=other), area, given=given)
                assert arrivals.answer.packets == arrivals.answer.listed == 0


def edge_records():
    """01, Numbers to try: 65,535 missed, the list of 10,907 bytes, a part of 8,999; a list with room to spare; and
    headers that only just fit."""
    numbers = Numbers(23)
    arrivals = Arrivals(numbers)
    yield arrivals.begun()
    for frame_type in TYPES:
        header = some_header(numbers, frame_type, numbers.below(9))._replace(txfn=65535)
        yield arrivals.apply(header, area_of("4001BB C001AA"), given=Receiver(0, 100))
        assert arrivals.answer.missed == 65535 and arrivals.receiver == Receiver(0, 0)
        yield from arrivals.all_in_full()
    header = some_header(numbers, frames.DATA, 5)
    for expected in [header.txfn, None]:
        for listed in [LIST, LIST + 1, LIST + 13]:
            longest = area_of("4001", numbers.bytes(1), "C76F", numbers.bytes(1903))
            yield arrivals.apply(header, longest, given=Receiver(expected, 8999), listed=listed)
            assert arrivals.answer.listed == LIST
            yield from arrivals.all_in_full()
        yield arrivals.apply(header, area_of("0772", numbers.bytes(1906)), given=Receiver(expected, 7093))
        assert arrivals.receiver.held == 8999
        yield from arrivals.all_in_full()
    for header in [*EDGES, *one_bit_headers()]:
        yield arrivals.apply(header, area_of("C001AA"), given=Receiver(None, 5))


# ---------------------------------------------------------------------------------------------------------------------
# Refused: the first in the call's order stands.


ORDER = [2, 3, 11, 14, 15]
CHOICES = [choice for count in range(1, 6) for choice in combinations(ORDER, count)]

WRONG_SIZES = [{"length": length} for length in [0, 1907, 1909, 2081, 2100]]
WRONG_SIZES += [{"hold": length} for length in [0, HOLD - 1, HOLD + 1, HOLD + 12]]
WRONG_SIZES += [{"listed": length} for length in [0, LIST - 1]]
WRONG_SIZES += [{"length": 1907, "hold": HOLD - 1}, {"length": 0, "hold": 0, "listed": 0}]
WRONG_HELDS = [9000, 9001, 2**16, 2**32, 2**63, 2**64 - 1]


def wrong_areas(numbers, is_14, is_15):
    """Areas to which 14, 15, both or neither apply, where 8,999 bytes or more are held: their first record passes 9,000
    or is a new packet, and what stands behind it keeps the rules or not."""
    front = ["4002", numbers.bytes(2)] if is_15 else ["C002", numbers.bytes(2)]
    behind = [["4001AA"], ["C000"], ["8001AA"], ["E001AA"], ["0000AA"]] if is_14 else [[], ["C001AA"]]
    return [area_of(*front, *part) for part in behind]


def choice_records():
    """Every choice of 2, 3, 14 and 15 together. Of another type 14 and 15 never apply."""
    numbers = Numbers(24)
    arrivals = Arrivals(numbers)
    yield arrivals.begun()
    for choice in [choice for choice in CHOICES if 11 not in choice]:
        sizes = WRONG_SIZES if 2 in choice else [{}]
        helds = WRONG_HELDS if 3 in choice else [8999]
        wrong = wrong_areas(numbers, 14 in choice, 15 in choice)
        for turn in range(max(len(sizes), len(helds), len(wrong))):
            header = some_header(numbers, frames.DATA, numbers.below(9))
            given = Receiver([header.txfn, None][turn % 2], helds[turn % len(helds)])
            lent = sizes[turn % len(sizes)]
            area = wrong[turn % len(wrong)]
            yield arrivals.apply(header, area, choice[0], given, **lent)
            of_other_type = choice[0] if choice[0] < 14 else 0
            yield arrivals.apply(header._replace(type=[0, 2, 3][turn % 3]), area, of_other_type, given, **lent)


def misfit_records():
    """11, a header that no opening gives (02, M-106): each way in which one can misfit, of each type, alone, with each
    other number and in turn with several. It comes behind 2 and 3, and before the area is looked into."""
    numbers = Numbers(39)
    arrivals = Arrivals(numbers)
    yield arrivals.begun()
    with_few = [choice for choice in CHOICES if 11 in choice and len(choice) <= 2]
    with_several = [choice for choice in CHOICES if 11 in choice and len(choice) > 2]
    for turn, (misfit, frame_type) in enumerate(product(headers_refused(numbers), TYPES)):
        header = misfit._replace(type=frame_type)
        for choice in [*with_few, with_several[turn % len(with_several)]]:
            wrong = wrong_areas(numbers, 14 in choice, 15 in choice)
            held = WRONG_HELDS[turn % len(WRONG_HELDS)] if 3 in choice else 8999
            lent = WRONG_SIZES[turn % len(WRONG_SIZES)] if 2 in choice else {}
            given = Receiver([header.txfn, None][turn % 2], held)
            yield arrivals.apply(header, wrong[turn % len(wrong)], choice[0], given, **lent)


def openings(numbers, sent):
    """Each refusal of opening, with the taps and the frame that meet it; 0 for none, as it was sent and repaired."""
    frame, damage = sent.frame, some_damage(numbers)
    little, _ = little_damage(numbers)
    yield from [(0, sent.taps, frame), (0, sent.taps, damaged(sent, little))]
    yield from [(1, sent.taps - 1, frame), (2, sent.taps, frame[:-1])]
    for number in OF_THE_FRAME:
        yield number, sent.taps, damaged(sent, [damage[number]])


def opening_records():
    """Frames opened and applied (02, M-106): each refusal of opening, and none, with every choice of apply's. Opening's
    stands, and nothing is applied after it."""
    numbers = Numbers(40)
    arrivals = Arrivals(numbers)
    yield arrivals.begun()
    for is_14, is_15 in product([False, True], repeat=2):
        area = wrong_areas(numbers, is_14, is_15)[0]
        sent = Sent(BENCH_TAPS, some_header(numbers, frames.DATA, numbers.below(9)), area)
        yield from whole(sent, AREA)
        of_the_area = 14 if is_14 else 15 if is_15 else 0
        for number, taps, frame in openings(numbers, sent):
            for held, lent in product([8999, 9000], [{}, {"hold": HOLD - 1}, {"hold": HOLD + 1}, {"listed": LIST - 1}]):
                of_apply = 2 if lent else 3 if held == 9000 else of_the_area
                given = Receiver(sent.header.txfn, held)
                yield arrivals.open_and_apply(taps, sent.frame, frame, number or of_apply, given, **lent)


def limit_records():
    """15 by one byte, with "last" and without; not where frames were missed, nor where nothing is held."""
    numbers = Numbers(25)
    arrivals = Arrivals(numbers)
    yield arrivals.begun()
    for most, parts in [(8990, ["400A", numbers.bytes(10)]), (7093, ["0772", numbers.bytes(1906)])]:
        header = some_header(numbers, frames.DATA, 2)
        area = area_of(*parts)
        for expected in [header.txfn, None]:
            yield arrivals.apply(header, area, 15, Receiver(expected, most + 1))
            yield arrivals.apply(header, area, 15, Receiver(expected, 8999))
            yield arrivals.apply(header, area, 0, Receiver(expected, most))
            yield from arrivals.all_in_full()
            yield arrivals.apply(header, area, 0, Receiver(expected, 0))
        yield arrivals.apply(header, area, 0, Receiver(header.txfn ^ 1, 8999))


# ---------------------------------------------------------------------------------------------------------------------
# Random sessions.


def session_records():
    """Packets of all lengths in the areas of frames, of which some are lost and some come with changes."""
    numbers = Numbers(26)
    for turn in range(3):
        arrivals = Arrivals(numbers)
        yield arrivals.begun()
        waiting, txfn = [], [0, 65520, numbers.below(2**16)][turn % 3]
        for _ in range(40):
            if len(waiting) < 3:
                length = 1 + numbers.below([30, 1906, 5000, 9000][numbers.below(4)])
                waiting.append((False, numbers.bytes(length)))
            area, waiting = packing.fill(waiting)
            chance = numbers.below(10)
            header = some_header(numbers, numbers.below(4) if chance == 0 else frames.DATA, numbers.below(9))
            header = header._replace(txfn=txfn)
            txfn = (txfn + 1) % 2**16
            if chance == 1:
                continue
            if chance == 2:
                wrong = against_the_rules(numbers, area)
                yield arrivals.apply(header._replace(type=frames.DATA), wrong, 14)
            yield arrivals.apply(header, area)
            yield from arrivals.read_all()


GROUPS = [
    typed_records, edge_records, choice_records, misfit_records, opening_records, limit_records, session_records,
]
