"""The vectors of the level and of the bare header.

    10  level         code; how far its level lies below 0, 4 bytes
    11  header coded  fields, the bytes lent; the refusal's number, the bytes lent after the call
    12  header read   the bytes given; the refusal's number, the fields, all 0 where it is refused

A refusal's number is one byte, and 0 where nothing is refused. The fields of a header are 24 bytes: TXFN 2, type,
RXFN 2, ACK, ACK-valid, TX_TS 8, seconds, TS-applies, the message's kind (0 to 6 the opcode, 7 reserved, 8 absent) and
three numbers of 2 bytes each, 0 where it has fewer; of a reserved message the opcode. They have more room than on the
wire, so that a field can be given that is too large.
"""

from coder import frames
from records import Numbers, changed, record, with_bit_changed

ABSENT, RESERVED, WIDTHS, WITH_LOCK = frames.ABSENT, frames.RESERVED, frames.WIDTHS, frames.WITH_LOCK
Header, Message = frames.Header, frames.Message

TYPES = range(4)
KINDS = range(9)


def fields(header):
    numbers = list(header.message.numbers) + [0, 0, 0]
    return (
        header.txfn.to_bytes(2, "big")
        + bytes([header.type])
        + header.rxfn.to_bytes(2, "big")
        + bytes([header.ack, header.valid])
        + header.stamp.to_bytes(8, "big")
        + bytes([header.seconds, header.applies, header.message.kind])
        + b"".join(number.to_bytes(2, "big") for number in numbers[:3])
    )


# ---------------------------------------------------------------------------------------------------------------------
# Headers to try with.


def some_message(numbers, kind):
    if kind == ABSENT:
        return Message(ABSENT, ())
    if kind == RESERVED:
        return Message(RESERVED, (7 + numbers.below(8),))
    widths = WIDTHS[kind][:-1] + [1] if kind in WITH_LOCK else WIDTHS[kind]
    return Message(kind, tuple(numbers.below(2**width) for width in widths))


def some_header(numbers, frame_type, kind):
    """A header that may be sent."""
    valid = numbers.below(2)
    return Header(
        txfn=numbers.below(2**16),
        type=frame_type,
        rxfn=numbers.below(2**16) * valid,
        ack=numbers.below(2),
        valid=valid,
        stamp=int.from_bytes(numbers.bytes(5), "big"),
        seconds=numbers.below(2**6),
        applies=numbers.below(2**3),
        message=some_message(numbers, kind),
    )


NOTHING = Header(0, 0, 0, 0, 0, 0, 0, 0, Message(0, (0,)))
LARGEST = Header(2**16 - 1, 3, 2**16 - 1, 1, 1, 2**40 - 1, 2**6 - 1, 2**3 - 1, Message(6, (2**16 - 1,)))
# 01, Numbers to try.
IDLE_1 = Header(1, frames.IDLE, 0, 0, 0, 0, 0, 0, Message(ABSENT, ()))
DATA_1234 = Header(0x1234, frames.DATA, 0xFFFF, 1, 1, 1, 59, 3, Message(5, (2, 1, 2)))
EDGES = [NOTHING, LARGEST, IDLE_1, DATA_1234]


def one_bit_headers():
    """One bit alone in each place of each field, and in each place of each message's numbers."""
    widths = {"txfn": 16, "type": 2, "ack": 1, "valid": 1, "stamp": 40, "seconds": 6, "applies": 3}
    for field, width in widths.items():
        for bit in range(width):
            yield NOTHING._replace(**{field: 1 << bit})
    for bit in range(16):
        yield NOTHING._replace(valid=1, rxfn=1 << bit)
    for kind, widths in WIDTHS.items():
        for place, width in enumerate(widths):
            for bit in range(1 if kind in WITH_LOCK and width == 2 else width):
                yield NOTHING._replace(message=one_number(kind, place, 1 << bit))
    for opcode in range(7, 15):
        yield NOTHING._replace(message=Message(RESERVED, (opcode,)))


def one_number(kind, place, number):
    return Message(kind, tuple(number if i == place else 0 for i in range(len(WIDTHS[kind]))))


def headers_refused(numbers):
    """Fields that are too large or against their rule, among others that are right."""
    amended = [{"stamp": stamp} for stamp in [2**40, 2**40 + 1, 2**41 - 1, 2**48, 2**63, 2**64 - 1]]
    amended += [{"seconds": seconds} for seconds in [64, 65, 128, 192, 255]]
    amended += [{"applies": applies} for applies in [8, 9, 16, 128, 255]]
    amended += [{"valid": 0, "rxfn": rxfn} for rxfn in [1, 255, 256, 2**15, 2**16 - 1]]
    for kind in WITH_LOCK:
        amended += [{"message": Message(kind, (number, number % 2))} for number in [2**14, 2**14 + 1, 2**15, 2**16 - 1]]
    for parts in [(32, 0, 0), (0, 32, 0), (0, 0, 64), (31, 31, 255), (255, 31, 63), (31, 255, 63), (64, 64, 128)]:
        amended += [{"message": Message(5, parts)}]
    amended += [{"message": Message(RESERVED, (opcode,))} for opcode in [*range(7), 15, 16, 23, 32, 128, 255]]
    for change in amended:
        yield some_header(numbers, numbers.below(4), numbers.below(9))._replace(**change)


# ---------------------------------------------------------------------------------------------------------------------
# The kinds.


def level(code):
    return record(10, bytes([code]), (-frames.level(code)).to_bytes(4, "big"))


def coded(header, lent, number):
    """The number is the one that is meant; the second coder has to find it too."""
    found, after = frames.code_header(header, lent)
    assert found == number, (header, found, number)
    return record(11, fields(header), lent, bytes([number]), after)


def read(given, number=None):
    """Where no number is meant, the second coder says which."""
    found, header = frames.read_header(given)
    assert number in (None, found), (given.hex(), found, number)
    return record(12, given, bytes([found]), bytes(24) if header is None else fields(header))


# ---------------------------------------------------------------------------------------------------------------------
# The groups.


def level_records():
    for code in range(256):
        yield level(code)


def coded_records():
    numbers = Numbers(7)
    for frame_type in TYPES:
        for kind in KINDS:
            for _ in range(2):
                yield coded(some_header(numbers, frame_type, kind), numbers.bytes(16), 0)
    for header in [*EDGES, *one_bit_headers()]:
        yield coded(header, numbers.bytes(16), 0)
    refused = list(headers_refused(numbers))
    for header in refused:
        yield coded(header, numbers.bytes(16), 6)
    for length in [0, 1, 14, 15, 17, 32]:
        for header in [some_header(numbers, length % 4, length % 9), refused[length]]:
            yield coded(header, numbers.bytes(length), 2)


PAYLOADS = [0, 1, 2, 3, 0x7FFF, 0x8000, 0xFFFD, 0xFFFE, 0xFFFF]


def read_records():
    """Whole headers; every bit wrong, with the check sum made anew and with the old one; every opcode with many
    payloads; other check sums; other lengths."""
    numbers = Numbers(8)
    for frame_type in TYPES:
        for kind in KINDS:
            yield read(frames.header_bytes(some_header(numbers, frame_type, kind)), 0)
    for header in [*EDGES, some_header(numbers, 2, 1)]:
        fourteen = frames.header_bytes(header)[:14]
        for place in range(8 * 14):
            yield read(frames.with_check(with_bit_changed(fourteen, place)))
    sixteen = frames.header_bytes(DATA_1234)
    for place in range(8 * 16):
        yield read(with_bit_changed(sixteen, place), 9)
    for opcode in range(16):
        for payload in [*PAYLOADS, numbers.below(2**16)]:
            values = frames.values_of(some_header(numbers, opcode % 4, 0)) | {"FCCH_OPCODE": opcode, "FCCH_PL": payload}
            yield read(frames.with_check(frames.bytes_by_table(values)))
    yield from wrongly_checked(sixteen)
    for length in [0, 1, 13, 14, 15, 17, 32]:
        yield read((sixteen * 2)[:length], 2)


def wrongly_checked(sixteen):
    """The CRC-16 low byte first, turned round, or of other bytes; and 9 before 11 where both apply."""
    fourteen, check = sixteen[:14], sixteen[14:]
    yield read(fourteen + check[::-1], 9)
    yield read(fourteen + bytes(255 - byte for byte in check), 9)
    yield read(fourteen + frames.with_check(fourteen[::-1])[14:], 9)
    lock_3 = changed(changed(fourteen, 11, 4), 12, 1)
    yield read(frames.with_check(lock_3), 11)
    yield read(lock_3 + check, 9)


def reserved_records():
    """02, M-100: all 128 choices of the seven reserved bits. With the CRC-16 made anew the same header is read, or the
    same rule is broken; with that of the ones left in place, all but the ones are refused with 9."""
    numbers = Numbers(37)
    for header in [*EDGES, some_header(numbers, 2, 3)]:
        fourteen, check = frames.header_bytes(header)[:14], frames.header_bytes(header)[14:]
        for reserved in range(frames.ALL_ONES + 1):
            other = frames.with_reserved(fourteen, reserved)
            assert frames.read_header(frames.with_check(other)) == (0, header)
            yield read(frames.with_check(other), 0)
            yield read(other + check, 0 if reserved == frames.ALL_ONES else 9)
    rxfn_alone = frames.bytes_by_table(frames.values_of(NOTHING) | {"RXFN": 1})
    for reserved in range(frames.ALL_ONES + 1):
        yield read(frames.with_check(frames.with_reserved(rxfn_alone, reserved)), 11)


GROUPS = [level_records, coded_records, read_records, reserved_records]
