"""The vectors of the codes. A body is the input and behind it the expected result:

    1  CRC-16          message, 2 bytes
    2  CRC-32          message, 4 bytes
    3  power of 2      exponent, the power
    4  parity          data, 16 bytes
    5  codeword        word, 1 if it is a codeword and 0 if not
    6  payload coded   2,040 bytes, the same with the parity in the last 128
    7  payload judged  payload, 1 if it is eight codewords and 0 if not
    8  taps judged     4 bytes, 1 if they are allowed and 0 if not
    9  scrambled       4 bytes of taps, bytes, the bytes scrambled
    28 to 32           as 4, 5, 6, 7 and 9: the plain form is tried, where those try the quick one
"""

from coder import codes
from records import Numbers, changed, one_bit, record

# 01, Numbers to try: the first 14 bytes of two headers.
HEADERS = [
    bytes.fromhex("01 00 00 00 F0 00 00 00 00 00 C0 8F FF FF"),
    bytes.fromhex("34 12 FF FF FD 01 00 00 00 00 FB B5 42 10"),
]


# ---------------------------------------------------------------------------------------------------------------------
# The kinds, one function each: what goes in, and what the second coder makes of it.


def crc_16(message):
    return record(1, message, codes.crc_16(message).to_bytes(2, "big"))


def crc_32(message):
    return record(2, message, codes.crc_32(message).to_bytes(4, "big"))


def power(exponent):
    return record(3, bytes([exponent, codes.power(exponent)]))


def parity(data):
    return record(4, data, codes.parity(data))


def codeword(word):
    return record(5, word, bytes([codes.is_codeword(word)]))


def payload_coded(payload):
    return record(6, payload, codes.code_payload(payload[: codes.PAYLOAD_DATA]))


def payload_judged(payload):
    return record(7, payload, bytes([codes.are_codewords(payload)]))


def taps_judged(taps):
    return record(8, taps.to_bytes(4, "big"), bytes([codes.are_taps(taps)]))


def scrambled(taps, message):
    return record(9, taps.to_bytes(4, "big"), message, codes.scramble(taps, message))


# ---------------------------------------------------------------------------------------------------------------------
# The groups.

LENGTHS = [2, 3, 4, 5, 7, 8, 9, 13, 15, 16, 17, 31, 32, 33, 63, 64, 65, 127, 128, 129, 255, 256, 257, 500, 999]


def check_sum_records():
    """Messages of many lengths; and one bit alone at each place of a header, and of eight bytes for the CRC-32."""
    numbers = Numbers(1)
    short = [b"", b"\x00", b"\x01", b"\x80", b"\xff", b"123456789", *HEADERS, bytes(14), b"\xff" * 14]
    random = [numbers.bytes(14) for _ in range(10)] + [numbers.bytes(length) for length in LENGTHS]
    area = [bytes(codes.AREA), b"\xff" * codes.AREA, numbers.bytes(codes.AREA), numbers.bytes(codes.AREA)]
    for message in short + random + area + [numbers.bytes(codes.PAYLOAD_DATA)]:
        yield crc_32(message)
    for message in short + random + area[2:]:
        yield crc_16(message)
    for place in range(8 * 14):
        yield crc_16(one_bit(14, place))
    for place in range(8 * 8):
        yield crc_32(one_bit(8, place))


def power_records():
    for exponent in range(255):
        yield power(exponent)


def parity_records():
    """Data of many lengths; and one byte alone at each place of a header."""
    numbers = Numbers(2)
    for data in [b"", b"\x00", b"\x01", b"\x02", b"\x80", b"\xff", bytes(16), bytes(239), b"\xff" * 239]:
        yield parity(data)
    for length in [2, 15, 17, 31, 64, 100, 128, 200, 223, 238] + [16] * 12 + [239] * 12:
        yield parity(numbers.bytes(length))
    for place in range(16):
        yield parity(changed(bytes(16), place, 1 + numbers.below(255)))


def words(numbers):
    """Codewords: whole ones, coded headers and other lengths."""
    for length in [239] * 8 + [16] * 8 + [1, 2, 84, 200]:
        data = numbers.bytes(length)
        yield data + codes.parity(data)


def codeword_records():
    numbers = Numbers(3)
    generator = bytes(codes.GENERATOR)
    for word in [bytes(16), bytes(255), generator, generator + bytes(15), bytes(238) + generator]:
        yield codeword(word)
    for word in words(numbers):
        yield codeword(word)
        yield codeword(changed(word, 0, 1 + numbers.below(255)))
        yield codeword(changed(word, len(word) - 1, 1 + numbers.below(255)))
        yield codeword(changed(word, numbers.below(len(word)), 1 << numbers.below(8)))
    yield from near_codewords(numbers)


def near_codewords(numbers):
    """Words of codes with other roots; and a right word turned about. Turned round or moved round as a whole it stays
    a codeword, since the generator reads the same from both ends and divides x^255 - 1; otherwise it does not."""
    data = numbers.bytes(239)
    parity_bytes = codes.parity(data)
    yield codeword(data + codes.parity(data, codes.generator_of([codes.power(j) for j in range(120, 136)])))
    yield codeword(data + codes.parity(data, codes.generator_of([codes.power(11 * j) for j in range(119, 135)])))
    yield codeword(data + parity_bytes[::-1])
    yield codeword(parity_bytes + data)
    yield codeword((data + parity_bytes)[::-1])
    yield codeword(data[::-1] + parity_bytes)
    yield codeword(numbers.bytes(255))


def payloads(numbers):
    """Payloads as they are sent: an area, its CRC-32, and the parity of the eight words."""
    for area in [bytes(codes.AREA), changed(bytes(codes.AREA), 0, 0xC0), numbers.bytes(codes.AREA)]:
        yield codes.code_payload(codes.payload_data_of(area))


def in_blocks(data):
    """The slip that 01 expects: eight blocks of 239 bytes in a row, and their parities in a row."""
    blocks = [data[239 * k : 239 * k + 239] for k in range(codes.WORDS)]
    return data + b"".join(codes.parity(block) for block in blocks)


def parity_in_blocks(data):
    """Every eighth byte to a word, but the parities in a row."""
    return data + b"".join(codes.parity(data[k :: codes.WORDS]) for k in range(codes.WORDS))


def payload_records():
    """Coded over whatever stood in the place of the parity; judged whole, with one byte off in each of the eight words,
    wrongly interleaved, too short and too long."""
    numbers = Numbers(4)
    whole = list(payloads(numbers))
    for payload in whole:
        yield payload_coded(payload[: codes.PAYLOAD_DATA] + numbers.bytes(128))
        yield payload_judged(payload)
    yield payload_coded(whole[2])
    yield payload_coded(b"\xff" * codes.PAYLOAD)
    for place in range(codes.WORDS):
        yield payload_coded(changed(bytes(codes.PAYLOAD), 1904 + place, 1 + numbers.below(255)))
    in_each_word = [word + codes.WORDS * numbers.below(255) for word in range(1, codes.WORDS - 1)]
    for place in [0, 1911, 1912, 2039] + in_each_word:
        yield payload_judged(changed(whole[2], place, 1 + numbers.below(255)))
    data = whole[2][: codes.PAYLOAD_DATA]
    for payload in [in_blocks(data), parity_in_blocks(data), bytes(codes.PAYLOAD)]:
        yield payload_judged(payload)
    for payload in [b"", bytes(255), whole[2][:-1], whole[2][1:], whole[2] + b"\x00", b"\x00" + whole[2]]:
        yield payload_judged(payload)


def taps_records():
    numbers = Numbers(5)
    edges = [0, 1, 2, 3, 8, 9, 2**24, 2**24 + 1, 2**25 - 2, 2**25 - 1, 2**25, 2**25 + 1, 2**26 - 1, 2**26]
    high = [2**31, 2**31 + 1, 2**32 - 2, 2**32 - 1]
    for taps in edges + high + [2**k for k in range(3, 24)] + [numbers.next() for _ in range(10)]:
        yield taps_judged(taps)
    for _ in range(10):
        yield taps_judged(numbers.taps())


def scrambler_records():
    """Zeros show the key itself. Each tap beside tap 0 alone, all taps, none but tap 0, and taps at random."""
    numbers = Numbers(6)
    for taps in [1, 2**25 - 1] + [1 + 2**i for i in range(1, codes.STAGES)]:
        yield scrambled(taps, bytes(24))
    for taps in [0b1001, 0b0011]:
        for length in range(6):
            yield scrambled(taps, bytes(length))
    for length in [1, 2, 3, 4, 5, 7, 8, 9, 31, 32, 33, 64, 100, 128, 255, 256] + [48] * 20:
        yield scrambled(numbers.taps(), numbers.bytes(length))
    for taps in [0b1001, 0b0011, 1, 2**25 - 1, numbers.taps(), numbers.taps()]:
        yield scrambled(taps, numbers.bytes(2072))


PLAIN_FORM = {4: 28, 5: 29, 6: 30, 7: 31, 9: 32}


def plain_records():
    """The same again of the plain form."""
    for group in [parity_records, codeword_records, payload_records, scrambler_records]:
        for one in group():
            yield bytes([PLAIN_FORM[one[0]]]) + one[1:]


GROUPS = [
    check_sum_records,
    power_records,
    parity_records,
    codeword_records,
    payload_records,
    taps_records,
    scrambler_records,
    plain_records,
]
