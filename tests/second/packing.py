"""Packets as records in a DATA area, and packets waiting in the lent queue, a ring.

"01" is the scope paper, "02" the paper of change requests, "R" and a number a point of READINGS.
"""

import random

import codes

PACKET = 9000  # the longest packet
QUEUE = 32768  # bytes of the lent queue
FIRST = 2 ** 15  # bit 15 of a record's mark
LAST = 2 ** 14  # bit 14 of a record's mark
BEGUN = 2 ** 15  # bit 15 of a mark in the queue
LENGTH_LIMIT = 2 ** 11  # bits 10-0 of a record's mark are its length
MARK = 2  # bytes of a mark
LEAST_RECORD = 3  # a mark and one byte


# The area (01, "Packing, the bench's own")


def mark(first, last, length):
    """The two bytes before a record, high byte first."""
    return ((FIRST if first else 0) + (LAST if last else 0) + length).to_bytes(MARK, "big")


def parted(area):
    """The records one behind the other, and the place behind them; None at a mark that can be none (R13)."""
    records = []
    place = 0
    while codes.AREA - place >= LEAST_RECORD:
        number = int.from_bytes(area[place:place + MARK], "big")
        if number == 0:
            break
        length = number % LENGTH_LIMIT
        middle_bits = (number % LAST) // LENGTH_LIMIT
        behind = place + MARK + length
        if middle_bits != 0 or length == 0 or behind > codes.AREA:
            return None
        records.append((number & FIRST != 0, number & LAST != 0, bytes(area[place + MARK:behind])))
        place = behind
    return records, place


def records_of(area):
    """The records of an area that keeps the packing rules, else None (refusal 14)."""
    if len(area) != codes.AREA:
        return None
    found = parted(area)
    if found is None:
        return None
    records, place = found
    rules = [
        len(records) >= 1,
        all(byte == 0 for byte in area[place:]),
        all(first for first, _, _ in records[1:]),
        all(last for _, last, _ in records[:-1]),
        # R14: a final record without "last" leaves not a byte of the area behind it.
        all(last for _, last, _ in records[-1:]) or place == codes.AREA,
    ]
    return records if all(rules) else None


def fill(waiting):
    """The area of the next DATA frame, and what still waits (01, "Next frame"; R19)."""
    area = b""
    waiting = list(waiting)
    while waiting and codes.AREA - len(area) >= LEAST_RECORD:
        begun, unsent = waiting.pop(0)
        taken = min(len(unsent), codes.AREA - len(area) - MARK)
        area += mark(not begun, taken == len(unsent), taken) + unsent[:taken]
        if taken < len(unsent):
            waiting.insert(0, (True, unsent[taken:]))
    return area + bytes(codes.AREA - len(area)), waiting


# The queue (01, "Queue"; 02, M-105)


def read_round(queue, start, count):
    """So many bytes of the ring from a start on: behind its last byte comes its first."""
    return bytes(queue[(start + i) % len(queue)] for i in range(count))


def written_round(queue, start, added):
    """The ring with these bytes from a start on; every other byte keeps its value."""
    after = bytearray(queue)
    for i, byte in enumerate(added):
        after[(start + i) % len(queue)] = byte
    return bytes(after)


def waiting_of(laid):
    """The packets laid out in these bytes, as (begun, unsent bytes), or None where none are laid out so (R16)."""
    waiting = []
    place = 0
    while place < len(laid):
        if len(laid) - place < MARK:
            return None
        number = int.from_bytes(laid[place:place + MARK], "big")
        begun = number & BEGUN != 0
        length = number % BEGUN
        behind = place + MARK + length
        longest = PACKET - 1 if begun else PACKET
        if (begun and place != 0) or not 1 <= length <= longest or behind > len(laid):
            return None
        waiting.append((begun, laid[place + MARK:behind]))
        place = behind
    return waiting


def waiting_in(queue, start, used):
    """The packets in the used bytes of the ring, or None where it is not whole (refusal 3)."""
    # Both numbers are judged before a place is made of them: a start past the end would otherwise be a place again.
    if not 0 <= start < QUEUE or not 0 <= used <= QUEUE:
        return None
    return waiting_of(read_round(queue, start, used))


def layout(waiting):
    """The bytes that say what waits: of each packet its mark, then what is unsent of it."""
    laid = b""
    for begun, unsent in waiting:
        laid += ((BEGUN if begun else 0) + len(unsent)).to_bytes(MARK, "big") + unsent
    return laid


# Trials


def frames_for(lengths):
    """The areas that packets of these lengths fill, one after the other until nothing waits."""
    chance = random.Random(1908)
    waiting = [(False, chance.randbytes(length)) for length in lengths]
    areas = []
    while waiting:
        area, waiting = fill(waiting)
        areas.append(area)
    return areas


def marks_of(lengths):
    """The marks in those areas, as hexadecimal words, area by area."""
    return [
        [mark(first, last, len(record)).hex() for first, last, record in records_of(area)]
        for area in frames_for(lengths)
    ]


def mark_cases():
    """01's numbers on packing."""
    full, second = frames_for([1904, 1])
    return [
        ("packet AA", fill([(False, b"\xAA")]), (b"\xC0\x01\xAA" + bytes(1905), [])),
        ("1,906", marks_of([1906]), [["c772"]]),
        ("1,907", marks_of([1907]), [["8772"], ["4001"]]),
        ("9,000", marks_of([9000]), [["8772"], ["0772"], ["0772"], ["0772"], ["4560"]]),
        ("1,903, then 1", marks_of([1903, 1]), [["c76f", "c001"]]),
        ("1,903, then 2", marks_of([1903, 2]), [["c76f", "8001"], ["4001"]]),
        ("1,904, then 1", marks_of([1904, 1]), [["c770"], ["c001"]]),
        ("1,904, then 1: two zeros, the second waits", (full[1906:], second[:2]), (b"\0\0", b"\xC0\x01")),
        ("1,903, then 9,000: 8,999 unsent", len(fill([(False, bytes(1903)), (False, bytes(9000))])[1][0][1]), 8999),
        ("nothing waits", fill([]), (bytes(codes.AREA), [])),
    ]


def area(text, length=codes.AREA):
    """An area that begins with these bytes and goes on with zeros."""
    return bytes.fromhex(text).ljust(length, b"\0")


def rule_cases():
    """Areas with and against the rules (R13 to R15)."""
    against = {
        "zeros": area(""),
        "length 0": area("8000"), "length 0, last": area("4000"), "length 0, both": area("C000"),
        "bit 11": area("C801AA"), "bit 12": area("D001AA"), "bit 13": area("E001AA"),
        "a byte behind the end mark": area("C001AA")[:-1] + b"\1",
        "end mark, then a byte": area("C001AA000001"),
        "one past the area": mark(True, True, 1907) + bytes(1906),
        "second lacks first": area("C001AA4001BB"),
        "final lacks last and stops early": area("8001AA"),
        "first lacks last before another": area("8001AAC001BB"),
        "lacks last, two bytes left": mark(True, False, 1904) + bytes(1904) + bytes(2),
        "two bytes left, not 0": mark(True, True, 1904) + bytes(1904) + b"\1\0",
        "one byte left, not 0": mark(True, True, 1905) + bytes(1905) + b"\1",
        "a byte less": area("C001AA")[:-1],
    }
    kept = {
        "small records": area("4001AAC001BB"),
        "neither, to the end": mark(False, False, 1906) + bytes(1906),
        "one byte left": mark(True, True, 1905) + bytes(1905) + b"\0",
        "least record at the end": mark(True, True, 1903) + bytes(1903) + b"\x80\x01\xAA",
    }
    cases = [(f"against: {what}", records_of(given), None) for what, given in against.items()]
    cases += [(f"kept: {what}", records_of(given) is None, False) for what, given in kept.items()]
    cases.append(("records", records_of(kept["small records"]), [(False, True, b"\xAA"), (True, True, b"\xBB")]))
    return cases


NO_MARKS = b"\xFF" * QUEUE


def queue_cases(start):
    """Queues whole and not whole (R16) that begin at this place of the ring."""
    begun_and_another = [(True, b"\xAA"), (False, b"\xBB\xCC")]
    longest = [(True, bytes(8999)), (False, bytes(9000)), (False, b"\xBB")]
    full = 4 * [(False, bytes(8190))]
    # What is laid out from the start on, how many bytes are said to be used, and what waits then.
    given = {
        "used above 32,768": (b"", QUEUE + 1, None),
        "huge": (b"", 2 ** 64 - 1, None),
        "one byte": (b"\0\1\xAA", 1, None),
        "a mark alone": (b"\0\1\xAA", 2, None),
        "a byte behind": (b"\0\1\xAA\0", 4, None),
        "length 0": (b"\0\0", 2, None),
        "9,001": (layout([(False, bytes(9001))]), 9003, None),
        "9,000 begun": (layout([(True, bytes(9000))]), 9002, None),
        "begun behind the front": (layout([(False, b"\xAA"), (True, b"\xBB")]), 6, None),
        "empty": (b"", 0, []),
        "begun": (b"\x80\1\xAA\0\2\xBB\xCC", 7, begun_and_another),
        "longest": (layout(longest), 18006, longest),
        "full": (layout(full), QUEUE, full),
    }
    return [
        (f"at {start}: {what}", waiting_in(written_round(NO_MARKS, start, laid), start, used), expected)
        for what, (laid, used, expected) in given.items()
    ]


def ring_cases():
    """The ring's last byte, and behind it its first; starts that are none."""
    ring = bytes([0, 1, 2, 3, 4])
    return [
        ("read over the end", read_round(ring, 3, 4), bytes([3, 4, 0, 1])),
        ("read to the end", read_round(ring, 3, 2), bytes([3, 4])),
        ("written over the end", written_round(ring, 4, b"\xAA\xBB"), bytes([0xBB, 1, 2, 3, 0xAA])),
        ("written: nothing", written_round(ring, 4, b""), ring),
        ("a start of 32,768, nothing used", waiting_in(NO_MARKS, QUEUE, 0), None),
        ("a huge start", waiting_in(NO_MARKS, 2 ** 64 - 1, 0), None),
    ]


def own_trial():
    """Tries every number of 01 that concerns packing; gives how many."""
    queues = [case for start in [0, 20000, QUEUE - 2, QUEUE - 1] for case in queue_cases(start)]
    return codes.all_same(mark_cases() + rule_cases() + queues + ring_cases())


if __name__ == "__main__":
    print(own_trial())
