"""The receiving end: opened frames applied, their packets put together again and listed. entries.py reads the list.

"01" is the scope paper, "02" the paper of change requests, "R" and a number a point of READINGS.
"""

from itertools import combinations, product
from typing import NamedTuple, Optional

import codes
import entries
import frames
import packing
# These belong to the interface of this module, though they are defined beside the list's reading.
from entries import LENGTH, entry, packet, packets_of  # noqa: F401

HOLD = 9000  # bytes of the lent hold
HELD_LIMIT = 8999  # a held part lacks at least one byte of its packet
LIST_OUTPUT = 10907  # the longest list of one frame (R25)


class Receiver(NamedTuple):
    """The expected TXFN, None when fresh, and the bytes held of a packet that is not whole yet."""

    expected: Optional[int]
    held: int


class Answer(NamedTuple):
    """The header, the frames missed before it, the packets completed, and how many bytes the list has."""

    header: frames.Header
    missed: int
    packets: int
    listed: int


FRESH = Receiver(None, 0)


def missed_before(header, receiver):
    """01, "Receiving": how far the TXFN is from the expected one; 0 where none was expected."""
    if receiver.expected is None or receiver.expected == header.txfn:
        return 0
    return (header.txfn - receiver.expected) % 65536


def passes_limit(record, held):
    """R23: the record continues a held part, and the sum is more than a packet or a part may have."""
    first, last, data = record
    limit = packing.PACKET if last else HELD_LIMIT
    return not first and held > 0 and held + len(data) > limit


def area_refusal(header, area, receiver):
    """14 or 15 where one applies, otherwise 0; only DATA areas are looked into."""
    if header.type != frames.DATA:
        return 0
    records = packing.records_of(area)
    if records is None:
        return 14
    if missed_before(header, receiver) == 0 and passes_limit(records[0], receiver.held):
        return 15
    return 0


def apply_refusal(header, area, receiver, hold, output):
    """02, M-106: the first number that applies in the order 2, 3, 11, 14, 15; otherwise 0. All but the last two are
    judged for every type of frame (R2)."""
    if len(area) != codes.AREA or len(hold) != HOLD or len(output) < LIST_OUTPUT:
        return 2
    if not 0 <= receiver.held <= HELD_LIMIT:
        return 3
    if not frames.may_be_sent(header):  # what coding refuses with 6, no opening gives
        return 11
    return area_refusal(header, area, receiver)


def take(records, held, hold):
    """01, "Receiving", record by record: the packets completed, the held bytes and the hold afterwards (R24)."""
    packets = []
    for first, last, data in records:
        if first:
            held = b""
        elif held == b"":
            continue
        if last:
            packets.append(held + data)
            held = b""
        else:
            behind = len(held) + len(data)
            hold = hold[:len(held)] + data + hold[behind:]
            held = held + data
    return packets, held, hold


def accept(header, area, receiver, hold, output):
    """What an accepted frame does: answer, and state, hold and output after it."""
    missed = missed_before(header, receiver)
    held = bytes(hold[:receiver.held]) if missed == 0 else b""
    records = packing.records_of(area) if header.type == frames.DATA else []
    packets, held, hold = take(records, held, bytes(hold))
    listed = b"".join(len(packet).to_bytes(LENGTH, "big") + packet for packet in packets)
    answer = Answer(header, missed, len(packets), len(listed))
    after = Receiver((header.txfn + 1) % 65536, len(held))
    return answer, after, hold, listed + bytes(output[len(listed):])


def apply(header, area, receiver, hold, output):
    """An opened frame taken: the number, the answer, and state, hold and output after the call."""
    number = apply_refusal(header, area, receiver, hold, output)
    if number != 0:
        return number, None, receiver, bytes(hold), bytes(output)
    return (0,) + accept(header, area, receiver, hold, output)


def open_and_apply(taps, frame, receiver, hold, output):
    """The two calls as one (02, M-106): what was opened is applied, once and as opened. The first refusal stands, and
    nothing is applied after one."""
    number, header, area, _ = frames.open_frame(taps, frame, codes.AREA)
    if number != 0:
        return number, None, receiver, bytes(hold), bytes(output)
    return apply(header, area, receiver, hold, output)


# Trials


HOLD_BYTES = bytes(range(250)) * 36
OUTPUT = bytes([0xA5]) * (LIST_OUTPUT + 2)
HEADER = frames.Header(7, frames.DATA, 0, 0, 0, 0, 0, 0, frames.Message(frames.ABSENT, ()))


def area_of(*records):
    """An area with these records, given as (first, last, bytes)."""
    joined = b"".join(packing.mark(first, last, len(data)) + data for first, last, data in records)
    return joined.ljust(codes.AREA, b"\0")


def taken(receiver, *records, frame_type=frames.DATA):
    """Number, missed, packets, state and hold after frame 7 with these records."""
    header = HEADER._replace(type=frame_type)
    number, answer, after, hold, output = apply(header, area_of(*records), receiver, HOLD_BYTES, OUTPUT)
    if number != 0:
        codes.all_same([("a refusal changes nothing", (answer, after, hold, output),
                         (None, receiver, HOLD_BYTES, OUTPUT))])
        return number
    codes.all_same([("bytes past the list", output[answer.listed:], OUTPUT[answer.listed:])])
    return answer.missed, packets_of(output[:answer.listed]), after, hold


def joining_cases():
    """Records against a held part: joined, dropped, skipped, and what a gap does (R20 to R24)."""
    held = Receiver(7, 100)
    part = HOLD_BYTES[:100]
    middle = bytes([1]) * 1906
    whole = (True, True, b"whole")
    end = (False, True, b"end")
    fills = (True, False, bytes([2]) * 1901)
    after = Receiver(8, 0)
    put_in = HOLD_BYTES[:100] + middle + HOLD_BYTES[2006:]
    cases = [
        ("joined", taken(held, end, whole), (0, [part + b"end", b"whole"], after, HOLD_BYTES)),
        ("dropped by first", taken(held, whole), (0, [b"whole"], after, HOLD_BYTES)),
        ("nothing held", taken(Receiver(7, 0), end, whole), (0, [b"whole"], after, HOLD_BYTES)),
        ("fresh", taken(FRESH, end, whole), (0, [b"whole"], after, HOLD_BYTES)),
        ("gap", taken(Receiver(5, 100), end, whole), (2, [b"whole"], after, HOLD_BYTES)),
        ("the same again", taken(Receiver(8, 100), end), (65535, [], after, HOLD_BYTES)),
        ("held, none expected", taken(Receiver(None, 100), end), (0, [part + b"end"], after, HOLD_BYTES)),
        ("middle", taken(held, (False, False, middle)), (0, [], Receiver(8, 2006), put_in)),
        ("middle, skipped", taken(Receiver(6, 100), (False, False, middle)), (1, [], after, HOLD_BYTES)),
        ("last, then first", taken(held, end, fills)[1:3], ([part + b"end"], Receiver(8, 1901))),
        ("last, then first: the hold", taken(held, end, fills)[3], fills[2] + HOLD_BYTES[1901:]),
    ]
    for frame_type in [frames.IDLE, 2, 3]:
        cases.append(("another type", taken(held, frame_type=frame_type), (0, [], Receiver(8, 100), HOLD_BYTES)))
        cases.append(("another type, gap", taken(Receiver(1, 100), frame_type=frame_type), (6, [], after, HOLD_BYTES)))
    return cases


def limit_cases():
    """The longest sums, their refusal 15, and the longest list (R23, R25)."""
    whole = (True, True, bytes(1903))
    one, full = (False, True, b"\1"), (False, False, bytes(1906))
    longest = apply(HEADER, area_of(one, whole), Receiver(7, 8999), HOLD_BYTES, OUTPUT[:LIST_OUTPUT])
    return [
        ("9,000 with last", taken(Receiver(7, 8999), one)[1], [HOLD_BYTES[:8999] + b"\1"]),
        ("9,001 with last", taken(Receiver(7, 8999), (False, True, b"\1\1"), whole[:2] + (b"x",)), 15),
        ("8,999 without last", taken(Receiver(7, 7093), full)[2], Receiver(8, 8999)),
        ("9,000 without last", taken(Receiver(7, 7094), full), 15),
        ("9,000 without last, none expected", taken(Receiver(None, 7094), full), 15),
        ("9,000 without last, a gap", taken(Receiver(6, 7094), full)[0], 1),
        ("the longest list", longest[1][2:], (2, LIST_OUTPUT)),
    ]


# What apply refuses, in the order of its numbers (02, M-106): each beside a frame that is right in all else.
RIGHT = {"header": HEADER, "area": area_of((True, True, b"x")), "receiver": Receiver(7, 8999)}
LENT = {"hold": HOLD_BYTES, "output": OUTPUT}
WRONG = [
    (2, {"area": bytes(1907)}), (2, {"area": bytes(1909)}), (2, {"hold": HOLD_BYTES[1:]}),
    (2, {"output": OUTPUT[:LIST_OUTPUT - 1]}), (3, {"receiver": Receiver(7, 9000)}),
    (11, {"header": HEADER._replace(rxfn=1)}),
    (14, {"area": bytes(1908)}), (14, {"area": area_of((False, True, b"xx"), (False, True, b"x"))}),
    (15, {"area": area_of((False, True, b"xx"))}),
]


def order_cases():
    """Every choice of what is wrong, of every type: the first number of the order stands, and nothing changes."""
    cases = []
    for choice in (choice for count in range(1, len(WRONG) + 1) for choice in combinations(WRONG, count)):
        given = RIGHT | LENT
        for _, change in reversed(choice):
            given |= change
        refused = None, given["receiver"], given["hold"], given["output"]
        numbers = [number for number, _ in choice]
        for frame_type in range(4):
            found = apply(**given | {"header": given["header"]._replace(type=frame_type)})
            if numbers[0] < 14 or frame_type == frames.DATA:
                cases.append((f"{numbers} of type {frame_type}", found, (numbers[0], *refused)))
            else:
                cases.append((f"{numbers} of type {frame_type}: not looked into", found[0], 0))
    return cases


def misfit_cases():
    """11 for every type, and for headers that coding refuses with 6, each in another way: a field too large or against its rule."""
    changes = [{"txfn": 65536}, {"rxfn": 1}, {"ack": 2}, {"stamp": 2 ** 40}, {"seconds": 64}, {"applies": 8}]
    for kind, parts in [(1, (2 ** 14, 0)), (1, (0, 2)), (3, (0, 3)), (5, (0, 32, 0)), (frames.RESERVED, (6,)),
                        (frames.RESERVED, (15,)), (9, ())]:
        changes.append({"message": frames.Message(kind, parts)})
    cases = []
    for change in [{"type": 4}] + [change | {"type": frame_type} for change in changes for frame_type in range(4)]:
        header = HEADER._replace(**change)
        found = frames.code_header(header, bytes(16))[0], apply(header, RIGHT["area"], FRESH, **LENT)[0]
        cases.append((f"a header with {change}", found, (6, 11)))
    return cases


def opened_cases(taps):
    """Never 11 of a header that was opened: every opcode with some payloads, of every type, with RXFN and without."""
    plain, payload = frames.values_of(HEADER), codes.code_payload(codes.payload_data_of(RIGHT["area"]))
    seen = set()
    for opcode, bits, (valid, rxfn) in product(range(16), [0, 2, 0xFFFF], [(0, 0), (0, 1), (1, 1)]):
        changes = {"FCCH_OPCODE": opcode, "FCCH_PL": bits, "ACK-valid": valid, "RXFN": rxfn, "FRAME_TYPE": opcode % 4}
        coded = frames.coded_header(frames.with_check(frames.bytes_by_table(plain | changes)))
        opened, header, area, _ = frames.open_frame(taps, frames.frame_of(taps, coded, payload), codes.AREA)
        seen.add((opened, apply(header, area, FRESH, **LENT)[0] if opened == 0 else None))
    return [("opened and applied, or refused when opened", seen, {(0, 0), (11, None)})]


def wire_cases(taps):
    """Whole frames: the missed count of 01; and opening's refusals before all of applying's (02, M-106)."""
    frame = frames.build(taps, HEADER._replace(txfn=65535), area_of((True, True, b"\xAA")))
    number, answer, after, hold, output = open_and_apply(taps, frame, Receiver(0, 5), HOLD_BYTES, OUTPUT)
    cases = [
        ("expected 0, arrived 65,535", (number, answer[1:]), (0, (65535, 1, 3))),
        ("expected 0, arrived 65,535: after", (after, hold), (Receiver(0, 0), HOLD_BYTES)),
        ("expected 0, arrived 65,535: list", output, b"\0\1\xAA" + OUTPUT[3:]),
    ]
    sixteen, zeros = frames.header_bytes(HEADER), codes.payload_data_of(bytes(1908))
    arrived = {
        7: bytes(2081),
        8: frames.damaged_header(frame, 9),
        9: frames.recoded(taps, sixteen[:15] + b"x", zeros),
        11: frames.recoded(taps, frames.with_check(sixteen[:2] + b"x" + sixteen[3:14]), zeros),
        12: frames.damaged_word(frame, 7, 9),
        13: frames.recoded(taps, sixteen, zeros[:-1] + b"x"),
    }
    undamaged = frames.recoded(taps, sixteen, zeros)
    calls = [(1, 8, frame[1:]), (2, taps, frame[1:]), *((number, taps, one) for number, one in arrived.items())]
    for hold, output, held in product([HOLD_BYTES, b""], [OUTPUT, b""], [8999, 9000]):
        lent = Receiver(7, held), hold, output
        behind = 2 if not hold or not output else 3 if held == 9000 else 14
        for number, given, one in [*calls, (behind, taps, undamaged)]:
            cases.append((f"{number} before {behind}", open_and_apply(given, one, *lent), (number, None, *lent)))
    return cases


def own_trial():
    """Tries every number of 01 that concerns the receiver, and each refusal before the others; gives how many."""
    taps = 0b1001
    refusals = order_cases() + misfit_cases() + opened_cases(taps) + wire_cases(taps)
    return entries.own_trial() + codes.all_same(joining_cases() + limit_cases() + refusals)


if __name__ == "__main__":
    print(own_trial())
