"""The header, bit by bit: what may be sent, what may arrive, and the bare header coded and read.

"01" is the scope paper, "02" the paper of change requests, "000" the OISL Standard 2.1.2, "R" and a number a point of
READINGS.
"""

from typing import NamedTuple

import codes

BARE_HEADER = 16

IDLE = 0
DATA = 1

RESERVED = 7  # a message kind: opcodes 7 to 14
ABSENT = 8  # a message kind: opcode 15
RESERVED_OPCODES = range(7, 15)
ABSENT_OPCODE = 15
ABSENT_PAYLOAD = 0xFFFF

# 000, Table 2-13: the widths of the numbers in the 16 bits, from the top down. Opcode and kind agree from 0 to 6.
WIDTHS = {0: [16], 1: [14, 2], 2: [8, 8], 3: [14, 2], 4: [8, 8], 5: [5, 5, 6], 6: [16]}
WITH_LOCK = [1, 3]


class Message(NamedTuple):
    """One message of the fast channel: its kind, and its numbers from the top of the 16 bits down."""

    kind: int
    numbers: tuple


class Header(NamedTuple):
    """The fields of a header; stamp is TX_TS, applies is TS-applies."""

    txfn: int
    type: int
    rxfn: int
    ack: int
    valid: int
    stamp: int
    seconds: int
    applies: int
    message: Message


# The place of every bit (000, Table 2-10)


def bits(name, top, bottom):
    """The bits of a field from the top one down to the bottom one."""
    return [(name, bit) for bit in range(top, bottom - 1, -1)]


ALL_ONES = 2 ** 7 - 1  # what a sender writes in the seven reserved bits

TABLE = (
    bits("TXFN", 7, 0)  # d0
    + bits("TXFN", 15, 8)  # d1
    + bits("RXFN", 7, 0)  # d2
    + bits("RXFN", 15, 8)  # d3
    + bits("reserved", 6, 3) + [("ACK", 0), ("ACK-valid", 0), ("FRAME_TYPE", 1), ("FRAME_TYPE", 0)]  # d4
    + bits("TX_TS", 7, 0)  # d5
    + bits("TX_TS", 15, 8)  # d6
    + bits("TX_TS", 23, 16)  # d7
    + bits("TX_TS", 31, 24)  # d8
    + bits("TX_TS", 39, 32)  # d9
    + bits("reserved", 2, 1) + bits("TOD_SECONDS", 5, 0)  # d10
    + bits("reserved", 0, 0) + bits("TS-applies", 2, 0) + bits("FCCH_OPCODE", 3, 0)  # d11
    + bits("FCCH_PL", 7, 0)  # d12
    + bits("FCCH_PL", 15, 8)  # d13
)


def opcode_of(message):
    """000, Table 2-12."""
    if message.kind == ABSENT:
        return ABSENT_OPCODE
    if message.kind == RESERVED:
        return message.numbers[0]
    return message.kind


def payload_of(message):
    """000, Table 2-13: the numbers one below the other; all ones when absent, 0 when reserved."""
    if message.kind == ABSENT:
        return ABSENT_PAYLOAD
    if message.kind == RESERVED:
        return 0
    payload = 0
    for number, width in zip(message.numbers, WIDTHS[message.kind]):
        payload = payload * 2 ** width + number
    return payload


def message_of(opcode, payload):
    """The message of an opcode and its 16 bits, whether or not these keep the rules."""
    if opcode == ABSENT_OPCODE:
        return Message(ABSENT, ())
    if opcode in RESERVED_OPCODES:
        return Message(RESERVED, (opcode,))
    numbers = []
    below = 16
    for width in WIDTHS[opcode]:
        below -= width
        numbers.append((payload >> below) % 2 ** width)
    return Message(opcode, tuple(numbers))


def values_of(header):
    """The fields by the names of the table; the reserved bits are 1."""
    return {
        "TXFN": header.txfn,
        "RXFN": header.rxfn,
        "ACK": header.ack,
        "ACK-valid": header.valid,
        "FRAME_TYPE": header.type,
        "TX_TS": header.stamp,
        "TOD_SECONDS": header.seconds,
        "TS-applies": header.applies,
        "FCCH_OPCODE": opcode_of(header.message),
        "FCCH_PL": payload_of(header.message),
        "reserved": ALL_ONES,
    }


def bytes_by_table(values):
    """d0 to d13: each bit of the table fetched from its field."""
    number = 0
    for name, bit in TABLE:
        number = number * 2 + (values[name] >> bit) % 2
    return number.to_bytes(14, "big")


def values_by_table(fourteen):
    """The fields out of d0 to d13, and the reserved bits."""
    number = int.from_bytes(fourteen, "big")
    values = {name: 0 for name, _ in TABLE}
    for place, (name, bit) in enumerate(TABLE):
        values[name] += (number >> (len(TABLE) - 1 - place)) % 2 << bit
    return values


def with_reserved(fourteen, reserved):
    """d0 to d13 with these reserved bits, as another maker may write them (02, M-100)."""
    return bytes_by_table({**values_by_table(fourteen), "reserved": reserved})


def with_check(fourteen):
    """The CRC-16 behind, high byte first, though the fields go low byte first (000, Table 2-10)."""
    return bytes(fourteen) + codes.crc_16(fourteen).to_bytes(2, "big")


def header_bytes(header):
    """d0 to d15 of a header that may be sent."""
    return with_check(bytes_by_table(values_of(header)))


def header_of(sixteen):
    """The fields of 16 bytes, whether or not these keep the rules."""
    values = values_by_table(sixteen[:14])
    message = message_of(values["FCCH_OPCODE"], values["FCCH_PL"])
    return Header(
        values["TXFN"], values["FRAME_TYPE"], values["RXFN"], values["ACK"], values["ACK-valid"],
        values["TX_TS"], values["TOD_SECONDS"], values["TS-applies"], message,
    )


# What may be sent and what may arrive


def fits(number, width):
    """Whether the number has room in so many bits."""
    return 0 <= number < 2 ** width


def message_may_be_sent(message):
    """R7, R8: no part too large, a lock of 0 or 1, a reserved opcode from 7 to 14."""
    if message.kind == ABSENT:
        return len(message.numbers) == 0
    if message.kind == RESERVED:
        return len(message.numbers) == 1 and message.numbers[0] in RESERVED_OPCODES
    if message.kind not in WIDTHS or len(message.numbers) != len(WIDTHS[message.kind]):
        return False
    if message.kind in WITH_LOCK and message.numbers[-1] not in (0, 1):
        return False
    return all(fits(number, width) for number, width in zip(message.numbers, WIDTHS[message.kind]))


def may_be_sent(header):
    """R7: what refusal 6 judges."""
    return all([
        fits(header.txfn, 16),
        fits(header.type, 2),
        fits(header.rxfn, 16),
        fits(header.ack, 1),
        fits(header.valid, 1),
        fits(header.stamp, 40),
        fits(header.seconds, 6),
        fits(header.applies, 3),
        header.valid == 1 or header.rxfn == 0,
        message_may_be_sent(header.message),
    ])


def keeps_rules(values):
    """R6: what refusal 11 judges."""
    opcode = values["FCCH_OPCODE"]
    payload = values["FCCH_PL"]
    return all([
        values["ACK-valid"] == 1 or values["RXFN"] == 0,
        opcode not in WITH_LOCK or payload % 4 in (0, 1),
        opcode not in RESERVED_OPCODES or payload == 0,
        opcode != ABSENT_OPCODE or payload == ABSENT_PAYLOAD,
    ])


def header_refusals(sixteen):
    """Those of 9 and 11 that apply to 16 bytes of header. The CRC-16 is of the bits as they came, the reserved ones among
    them; otherwise these are not looked at, and 10 is never given (02, M-100)."""
    values = values_by_table(sixteen[:14])
    refusals = []
    if with_check(sixteen[:14]) != bytes(sixteen):
        refusals.append(9)
    if not keeps_rules(values):
        refusals.append(11)
    return refusals


def code_header(header, lent):
    """A bare header into 16 lent bytes (R3): the number, and the lent bytes after the call."""
    refusals = []
    if len(lent) != BARE_HEADER:
        refusals.append(2)
    if not may_be_sent(header):
        refusals.append(6)
    if refusals:
        return min(refusals), bytes(lent)
    return 0, header_bytes(header)


def read_header(given):
    """A bare header read: the number, and the fields where it is 0. It has no parity, so 8 cannot come (R9)."""
    refusals = [2] if len(given) != BARE_HEADER else header_refusals(given)
    if refusals:
        return min(refusals), None
    return 0, header_of(given)


def level(code):
    """01, "Level": in hundred-thousandths of a dBm/m²."""
    return -25086 * code


# Trials


def own_trial():
    """Tries every number of 01 that concerns the header's bits; gives how many."""
    idle = Header(1, IDLE, 0, 0, 0, 0, 0, 0, Message(ABSENT, ()))
    data = Header(0x1234, DATA, 0xFFFF, 1, 1, 1, 59, 3, Message(5, (2, 1, 2)))
    zeros = Header(0, IDLE, 0, 0, 0, 0, 0, 0, Message(0, (0,)))
    idle_bytes = bytes.fromhex("01000000F00000000000C08FFFFF")
    data_bytes = bytes.fromhex("3412FFFFFD0100000000FBB54210")
    spoiled = bytes([idle_bytes[0] ^ 1]) + header_bytes(idle)[1:]
    return codes.all_same([
        ("112 places, all different", (len(TABLE), len(set(TABLE))), (112, 112)),
        ("the IDLE header", bytes_by_table(values_of(idle)), idle_bytes),
        ("the DATA header", bytes_by_table(values_of(data)), data_bytes),
        ("the CRC-16 high byte first", with_check(bytes(13) + b"\1")[13:].hex(), "011021"),
        ("both read back", [header_of(header_bytes(header)) for header in (idle, data)], [idle, data]),
        ("coded", code_header(data, bytes(16)), (0, header_bytes(data))),
        ("coded into 17", code_header(data, bytes(17)), (2, bytes(17))),
        ("seconds 64", code_header(data._replace(seconds=64), b"x" * 16), (6, b"x" * 16)),
        ("RXFN not acknowledged", may_be_sent(data._replace(valid=0)), False),
        ("lock 2", may_be_sent(data._replace(message=Message(1, (0, 2)))), False),
        ("reserved opcode 14", may_be_sent(data._replace(message=Message(RESERVED, (14,)))), True),
        ("reserved opcode 15", may_be_sent(data._replace(message=Message(RESERVED, (15,)))), False),
        ("read", read_header(header_bytes(data)), (0, data)),
        ("read 15 bytes", read_header(bytes(15)), (2, None)),
        ("read, CRC-16 differs", read_header(spoiled), (9, None)),
        ("read, CRC-16 low byte first", read_header(idle_bytes + header_bytes(idle)[:13:-1]), (9, None)),
        ("read zeros: the CRC-16 agrees, reserved bits are 0", read_header(bytes(16)), (0, zeros)),
        ("reserved bits, all 0 but d4's lowest", with_reserved(data_bytes, 8).hex(), "3412ffff1d01000000003b354210"),
        ("read, absent with payload", read_header(with_check(idle_bytes[:13] + b"\xFE")), (11, None)),
        ("level 255", level(255), -6396930),
        ("level 0", level(0), 0),
    ])


if __name__ == "__main__":
    print(own_trial())
