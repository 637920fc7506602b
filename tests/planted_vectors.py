"""Records that are planted: what each expects is wrong in one byte, or longer or shorter by one, and the program has to
find each of them different. So a comparison that is left out, or cut short, is seen. A call of such a record is made as
any other, and those that change a queue, a hold or a list do so; every byte that a kind compares is wrong once, but of
long ones a few."""

from functools import partial

from code_vectors import PLAIN_FORM, codeword, crc_16, crc_32, parity, payload_coded, payload_judged, power, scrambled
from code_vectors import taps_judged
from coder import codes, frames, receiver
from damage import add, damaged, hopeless_error, some_error
from frame_vectors import BENCH_TAPS, Sent, changed_to, opened, refused, whole
from header_vectors import coded, level, read, some_header
from receiver_session import Arrivals
from records import PLANTED, Numbers, changed, planted
from repair_vectors import PART, part_shown, repaired
from sender_session import Session
from sender_vectors import area_of

AREA = codes.AREA


def wrong_byte(one, place, numbers):
    """The place may be counted from the end."""
    return planted(one, lambda body: changed(body, place % len(body), 1 << numbers.below(8)))


def wrong_bytes(numbers, make, places):
    """A record is made anew for each place, since some calls change what the next one finds."""
    for place in places:
        yield wrong_byte(make(), place, numbers)


def wrong_length(make):
    """A byte more at the end, and one less; for kinds whose body ends in what is expected."""
    yield planted(make(), lambda body: body + b"\x00")
    yield planted(make(), lambda body: body[:-1])


def some_of(start, end):
    """The first place, the last, and some between them."""
    return [*range(start, end - 1, (end - start) // 7), end - 1]


# ---------------------------------------------------------------------------------------------------------------------
# The groups: codes and headers, whole frames and their repair, the sender, the receiver, and what waits.


def code_records():
    numbers = Numbers(28)
    data, payload, message = numbers.bytes(16), numbers.bytes(codes.PAYLOAD), numbers.bytes(40)
    word = data + codes.parity(data)
    coded_payload = codes.code_payload(payload[: codes.PAYLOAD_DATA])
    two_forms = [
        *wrong_bytes(numbers, partial(parity, data), range(-16, 0)),
        *wrong_bytes(numbers, partial(codeword, word), [-1]),
        *wrong_bytes(numbers, partial(codeword, changed(word, 3, 1)), [-1]),
        *wrong_bytes(numbers, partial(payload_coded, payload), some_of(codes.PAYLOAD, 2 * codes.PAYLOAD)),
        *wrong_length(partial(payload_coded, payload)),
        *wrong_bytes(numbers, partial(payload_judged, coded_payload), [-1]),
        *wrong_bytes(numbers, partial(payload_judged, payload), [-1]),
        *wrong_bytes(numbers, partial(scrambled, BENCH_TAPS, message), range(-40, 0)),
        *wrong_length(partial(scrambled, BENCH_TAPS, message)),
    ]
    yield from two_forms
    for one in two_forms:
        yield bytes([PLANTED + PLAIN_FORM[one[0] - PLANTED]]) + one[1:]
    yield from wrong_bytes(numbers, partial(crc_16, message), [-2, -1])
    yield from wrong_bytes(numbers, partial(crc_32, message), range(-4, 0))
    for make in [partial(power, 200), partial(taps_judged, BENCH_TAPS), partial(taps_judged, 2)]:
        yield from wrong_bytes(numbers, make, [-1])
        yield from wrong_length(make)


def header_records():
    """Of a header that is coded, and of one that is refused, the number alone is wrong and each byte alone."""
    numbers = Numbers(29)
    yield from wrong_bytes(numbers, partial(level, 77), range(-4, 0))
    yield from wrong_length(partial(level, 77))
    lent = numbers.bytes(16)
    header = some_header(numbers, frames.DATA, 5)
    for make in [partial(coded, header, lent, 0), partial(coded, header._replace(seconds=64), lent, 6)]:
        yield from wrong_bytes(numbers, make, range(-17, 0))
        yield from wrong_length(make)
    sixteen = frames.header_bytes(header)
    for make in [partial(read, sixteen, 0), partial(read, changed(sixteen, 15, 1), 9)]:
        yield from wrong_bytes(numbers, make, range(-25, 0))


def frame_records():
    """One is said to be refused with 0 and is opened: only what was lent for its area tells. The records of kind 34
    change nothing, so that the frame at hand stays; each is wrong in its digest."""
    numbers = Numbers(30)
    sent = Sent(BENCH_TAPS, some_header(numbers, frames.DATA, 1), numbers.bytes(30))
    built, opened_again = whole(sent, AREA)
    frame = sent.frame
    yield from wrong_bytes(numbers, lambda: built, some_of(28, 28 + frames.FRAME))
    yield built
    yield from wrong_bytes(numbers, lambda: opened_again, range(6, 32 + 30))
    yield from wrong_bytes(numbers, lambda: refused(7, frame, BENCH_TAPS, changed(frame, 0, 1)), [8])
    yield planted(refused(0, frame, BENCH_TAPS, frame))
    yield from wrong_bytes(numbers, lambda: changed_to(frame, frame), range(8))


def repair_records():
    """Of a frame with wrong bytes the count when it is opened; of its part, of one with none and of one with too many
    the answer and the digests; and what is shown after each answer."""
    numbers = Numbers(50)
    sent = Sent(BENCH_TAPS, some_header(numbers, frames.DATA, 6), numbers.bytes(30))
    little = damaged(sent, [add(word, some_error(numbers, word, 8)) for word in [1, 8]])
    no_word = damaged(sent, [add(1, hopeless_error(numbers, 1))])
    yield from whole(sent, AREA)
    for frame, answer in [(sent.frame, (0, 0)), (little, (0, 16)), (no_word, (12, 0))]:
        made = partial(repaired, answer, sent.frame, BENCH_TAPS, frame, PART, 2100)
        yield from wrong_bytes(numbers, made, range(8, 26))
        shown = partial(part_shown, sent.frame, *answer, PART, 2100)
        yield from wrong_bytes(numbers, shown, range(6, 14))
        yield from wrong_length(shown)
    yield changed_to(sent.frame, little)
    yield from wrong_bytes(numbers, partial(opened, sent, little, AREA, 16), [*range(6, 32), *some_of(32, 62)])


def sender_records():
    """Of calls that are accepted, and of such as are refused."""
    numbers = Numbers(31)
    session = Session(numbers.next(), 1000)
    header = some_header(numbers, frames.DATA, 3)
    yield from wrong_bytes(numbers, session.begun, range(4, 12))
    yield from wrong_length(session.begun)
    for make in [lambda: session.put(2, numbers.next()), partial(session.put, 0, 1, 4)]:
        yield from wrong_bytes(numbers, make, range(26, 54))
        yield from wrong_length(make)
    yield from wrong_bytes(numbers, lambda: session.change(changed(session.queue, 5, 1)), range(8))
    for make in [partial(session.next_frame, BENCH_TAPS, header), partial(session.next_frame, 2, header, 1)]:
        yield from wrong_bytes(numbers, make, range(50, 86))
    shown = partial(session.next_frame, BENCH_TAPS, header, full=True)
    yield from wrong_bytes(numbers, shown, some_of(86, 86 + frames.FRAME))
    yield from wrong_bytes(numbers, lambda: session.queue_in_full(session.queue), [*range(4), *some_of(4, 1000)])


def waiting_records():
    """Of what is counted, and of a refusal: the number, the packets and the bytes."""
    numbers = Numbers(36)
    session = Session(numbers.next(), 32767)
    yield session.begun()
    yield session.put(300, numbers.next())
    for make in [partial(session.count, 1, 300), partial(session.count, 0, 0, 2, lent=5)]:
        yield from wrong_bytes(numbers, make, range(20, 37))
        yield from wrong_length(make)


def receiver_records():
    """Of calls that are accepted, and of such as are refused, a frame by either call; of a packet, the list's end and a
    position that is none."""
    numbers = Numbers(32)
    arrivals = Arrivals(numbers)
    area = area_of("4003", numbers.bytes(3), "876D", numbers.bytes(1901))
    sent = Sent(BENCH_TAPS, some_header(numbers, frames.DATA, 1), area)
    header, frame = sent.header, sent.frame
    fits, no_state = receiver.Receiver(header.txfn, 100), receiver.Receiver(header.txfn, 9000)
    yield from wrong_bytes(numbers, arrivals.begun, range(8, 24))
    yield from wrong_length(arrivals.begun)
    yield from whole(sent, AREA)
    for given, number in [(no_state, 3), (fits, 0)]:
        applied = partial(arrivals.apply, header, area_of("4003", area[2:5], "C001AA"), number, given)
        yield from wrong_bytes(numbers, applied, range(41, 111))
        arrived = partial(arrivals.open_and_apply, BENCH_TAPS, frame, frame, number, given)
        yield from wrong_bytes(numbers, arrived, range(21, 91))
    for position, number in [(0, 0), (105, 0), (1, 16)]:
        read_at = partial(arrivals.read, 105, position, number)
        yield from wrong_bytes(numbers, read_at, range(10, 44))
        yield from wrong_length(read_at)
    yield from wrong_bytes(numbers, arrivals.list_in_full, some_of(0, 105))
    yield from wrong_bytes(numbers, arrivals.hold_in_full, some_of(0, 1901))
    yield from wrong_bytes(numbers, lambda: arrivals.change_list(changed(arrivals.list, 5, 1)), range(8))
    unopened = partial(arrivals.open_and_apply, BENCH_TAPS, frame, changed(frame, 0, 1), 7, fits)
    yield from wrong_bytes(numbers, unopened, range(21, 91))


GROUPS = [
    code_records, header_records, frame_records, repair_records, sender_records, receiver_records, waiting_records,
]
