"""The codes under a frame: two checks (CRC), the Reed-Solomon code and the scrambler, each as its definition says.

"01" is the scope paper, "000" the OISL Standard 2.1.2, "R" and a number a point of READINGS.
"""

import binascii
import functools
import itertools
import random
import zlib

AREA = 1908  # data bytes of a frame (000, 2.6.3.4.1)
PAYLOAD_DATA = 1912  # the area and its CRC-32
PAYLOAD = 2040  # the same with the parity of its words
WORDS = 8  # codewords in a payload (000, 2.6.3.6.3)
STAGES = 25  # bits from which the scrambler goes on (000, Table 2-17)

WORD = 255  # bytes of a whole codeword
WORD_DATA = 239  # data bytes of a codeword
WORD_PARITY = 16  # parity bytes of a codeword


def polynomial(exponents):
    """The polynomial over the bits whose powers are given, as a number: bit k is the coefficient of x^k."""
    return sum(1 << exponent for exponent in exponents)


CRC_16_DIVISOR = polynomial([16, 12, 5, 0])  # 000, Table 2-15
CRC_32_DIVISOR = polynomial([32, 26, 23, 22, 16, 12, 11, 10, 8, 7, 5, 4, 2, 1, 0])  # 000, Table 2-15
FIELD = polynomial([8, 7, 2, 1, 0])  # 000, 2.6.3.6.3


def division_rest(number, divisor):
    """Long division of polynomials over the bits: take the divisor away under the top bit while it still fits."""
    degree = divisor.bit_length() - 1
    while number.bit_length() > degree:
        number ^= divisor << (number.bit_length() - 1 - degree)
    return number


def crc_16(message):
    """01, "Both CRCs": the rest of the message times x^16."""
    return division_rest(int.from_bytes(message, "big") << 16, CRC_16_DIVISOR)


def crc_32(message):
    """01, "Both CRCs": the rest of the message times x^32."""
    return division_rest(int.from_bytes(message, "big") << 32, CRC_32_DIVISOR)


# The field of 256 elements (000, 2.6.3.6.3)


@functools.lru_cache(maxsize=None)
def product(left, right):
    """Two elements multiplied: as polynomials over the bits, then the rest by the field polynomial."""
    whole = 0
    for place in range(8):
        if (right >> place) & 1:
            whole ^= left << place
    return division_rest(whole, FIELD)


@functools.lru_cache(maxsize=None)
def power(exponent):
    """2 multiplied by itself; the 255th power is 1 (own_trial shows it), so whole rounds of 255 are left out."""
    value = 1
    for _ in range(exponent % 255):
        value = product(value, 2)
    return value


# The Reed-Solomon code (01, "Reed-Solomon code"; 000, 2.6.3.6.3)


def generator_of(roots):
    """The product of the factors (x + root), highest power first; in this field minus is plus."""
    coefficients = [1]
    for root in roots:
        longer = [0] * (len(coefficients) + 1)
        for place, coefficient in enumerate(coefficients):
            longer[place] ^= coefficient
            longer[place + 1] ^= product(coefficient, root)
        coefficients = longer
    return coefficients


ROOTS = [power(11 * j) for j in range(120, 136)]
GENERATOR = generator_of(ROOTS)


@functools.lru_cache(maxsize=None)
def multiple(generator, factor):
    """The generator times one element; kept, because a division asks for the same multiples again and again."""
    return [product(coefficient, factor) for coefficient in generator]


def parity(data, generator=GENERATOR):
    """The rest of the data times x^16 by the generator: long division on the list of coefficients."""
    generator = tuple(generator)
    degree = len(generator) - 1
    number = list(data) + [0] * degree
    for place in range(len(data)):
        for offset, taken in enumerate(multiple(generator, number[place])):
            number[place + offset] ^= taken
    return bytes(number[len(data):])


@functools.lru_cache(maxsize=None)
def powers_of(root):
    """root^0, root^1, ... root^254, one for each place of a word."""
    powers = [1]
    while len(powers) < WORD:
        powers.append(product(powers[-1], root))
    return powers


def value_at(word, root):
    """The word as a polynomial, first byte the highest power, with the root put in for x."""
    total = 0
    for byte, power_of_root in zip(reversed(word), powers_of(root)):
        total ^= product(byte, power_of_root)
    return total


def is_codeword(word):
    """A word belongs to the code exactly when it is 0 at all 16 roots; zeros in front would add nothing to it."""
    return WORD_PARITY <= len(word) <= WORD and all(value_at(word, root) == 0 for root in ROOTS)


# The payload of a frame (01, "Payload")


def payload_data_of(area):
    """The area and its CRC-32, high byte first (01 decides against 000: R10)."""
    return bytes(area) + crc_32(area).to_bytes(4, "big")


def dealt(given):
    """Byte k goes to word k mod 8 at place k div 8."""
    words = [[] for _ in range(WORDS)]
    for k, byte in enumerate(given):
        words[k % WORDS].append(byte)
    return words


def code_payload(payload_data):
    """The 1,912 bytes, then the 128 parity bytes: parity byte k is that of word k mod 8 at place k div 8."""
    parities = [parity(word) for word in dealt(payload_data)]
    behind = [parities[k % WORDS][k // WORDS] for k in range(WORDS * WORD_PARITY)]
    return bytes(payload_data) + bytes(behind)


def are_codewords(payload):
    """Whether every one of the eight words, its data and then its parity, belongs to the code."""
    if len(payload) != PAYLOAD:
        return False
    data_parts = dealt(payload[:PAYLOAD_DATA])
    parity_parts = dealt(payload[PAYLOAD_DATA:])
    return all(is_codeword(data + behind) for data, behind in zip(data_parts, parity_parts))


# The scrambler (01, "Scrambler"; 000, 2.6.3.6.4 to 2.6.3.6.7)


def are_taps(taps):
    """R5: a number below 2^25 with tap 0 set."""
    return 0 <= taps < 2 ** STAGES and taps % 2 == 1


def key_bits(taps, count):
    """s0, s1, ... as one list: three ones, 22 zeros (000, Table 2-17), then each bit from the 25 before it."""
    bits = [1, 1, 1] + [0] * (STAGES - 3)
    is_set = [(taps >> tap) & 1 for tap in range(STAGES)]
    for k in range(count - STAGES):
        under_taps = itertools.compress(bits[k:k + STAGES], is_set)
        bits.append(sum(under_taps) % 2)
    return bits[:count]


@functools.lru_cache(maxsize=256)
def key(taps, length):
    """The bits as one number, s0 on top; kept, because the key of every frame is the same."""
    return int("0" + "".join(str(bit) for bit in key_bits(taps, 8 * length)), 2)


def scramble(taps, message):
    """The message with the key added modulo 2, top bit of each byte first; the key begins anew with the message."""
    number = int.from_bytes(message, "big") ^ key(taps, len(message))
    return number.to_bytes(len(message), "big")


# Trials


def all_same(cases):
    """Ends the program at the first of the cases (what, got, wanted) that differs; gives how many there are."""
    for what, got, wanted in cases:
        if got != wanted:
            raise SystemExit(f"differs: {what}: got {got!r}, wanted {wanted!r}")
    return len(cases)


def mirrored(number, width):
    """The number with its bits in the opposite order, as zlib holds them."""
    return int(f"{number:0{width}b}"[::-1], 2)


def zlib_crc_32(message):
    """zlib's CRC-32 with its mirrored bits, its start of all ones and its inverted end undone."""
    mirrored_message = bytes(mirrored(byte, 8) for byte in message)
    return mirrored(zlib.crc32(mirrored_message, 0xFFFFFFFF) ^ 0xFFFFFFFF, 32)


def check_cases():
    """01's numbers on the CRCs, the published check values, and the library's CRCs on random messages."""
    cases = [
        ("CRC-16 of 01", crc_16(b"\x01"), 0x1021),
        ("CRC-32 of 01", crc_32(b"\x01"), 0x04C11DB7),
        ("CRC-16 of no bytes", crc_16(b""), 0),
        ("CRC-32 of no bytes", crc_32(b""), 0),
        ("CRC-16 of 123456789", crc_16(b"123456789"), 0x31C3),
        ("CRC-32 of 123456789", crc_32(b"123456789"), 0x89A1897F),
    ]
    chance = random.Random(16)
    for length in [1, 2, 3, 14, 255, AREA]:
        message = chance.randbytes(length)
        cases.append((f"CRC-16 of {length} bytes, binascii", crc_16(message), binascii.crc_hqx(message, 0)))
        cases.append((f"CRC-32 of {length} bytes, zlib", crc_32(message), zlib_crc_32(message)))
    return cases


def field_cases():
    """01's powers, that there are 255 of them, and the generator as CCSDS prints it (R12)."""
    half = [0, 30, 230, 49, 235, 129, 81, 76, 173]
    printed = [power(exponent) for exponent in half + half[-2::-1]]
    return [
        ("power 8", power(8), 0x87),
        ("power 9", power(9), 0x89),
        ("power 254", power(254), 0xC3),
        ("power 255, the long way", product(power(254), 2), 1),
        ("the powers are all the elements but 0", sorted(power(k) for k in range(255)), list(range(1, 256))),
        ("power 255 and more", [power(255), power(11 * 135)], [1, power(11 * 135 - 5 * 255)]),
        ("the generator", GENERATOR, printed),
        ("the generator from its other end", GENERATOR[::-1], printed),
        ("the generator at its roots", [value_at(GENERATOR, root) for root in ROOTS], [0] * WORD_PARITY),
    ]


def word_cases():
    """Words coded and judged by the roots; one changed byte makes any word no codeword."""
    chance = random.Random(239)
    cases = []
    for length in [0, 1, 16, 238, 239]:
        word = bytearray(chance.randbytes(length))
        word += parity(word)
        cases.append((f"word of {length}", is_codeword(word), True))
        cases.append((f"word of {length}, zeros in front", parity(bytes(239 - length) + word[:length]), word[length:]))
        word[chance.randrange(len(word))] ^= chance.randrange(1, 256)
        cases.append((f"word of {length}, damaged", is_codeword(word), False))
    payload = code_payload(payload_data_of(chance.randbytes(AREA)))
    cases.append(("CRC-32 high byte first", payload_data_of(bytes(1907) + b"\1")[1907:].hex(), "0104c11db7"))
    cases.append(("payload, length", len(payload), PAYLOAD))
    cases.append(("payload, every eighth byte", [is_codeword(payload[k::8]) for k in range(8)], [True] * 8))
    cases.append(("payload", are_codewords(payload), True))
    cases.append(("payload, a byte less", are_codewords(payload[:-1]), False))
    cases.append(("payload of zeros", code_payload(bytes(PAYLOAD_DATA)), bytes(PAYLOAD)))
    return cases


def scrambler_cases():
    """01's scrambler bytes; scrambling twice gives the message back; which taps are taps (R5)."""
    message = random.Random(25).randbytes(2072)
    settings = [1, 3, 9, 2 ** 25 - 1, 2 ** 24 + 1]
    cases = [(f"bytes 0 to 2, taps {taps}", scramble(taps, bytes(3)), b"\xE0\x00\x00") for taps in settings]
    cases += [
        ("byte 3, taps 0 and 3", scramble(0b1001, bytes(4))[3], 0x70),
        ("byte 3, taps 0 and 1", scramble(0b11, bytes(4))[3], 0x10),
        ("tap 0 alone comes round after 25 bits", key_bits(1, 50), 2 * ([1] * 3 + [0] * 22)),
        ("scrambled twice", scramble(9, scramble(9, message)), message),
        ("no bytes", scramble(9, b""), b""),
        ("taps", [are_taps(taps) for taps in settings], [True] * 5),
        ("no taps", [are_taps(taps) for taps in [0, 2, 8, 2 ** 25, 2 ** 25 + 1, 2 ** 32 - 1]], [False] * 6),
    ]
    return cases


def own_trial():
    """Tries every number of 01 that concerns the codes; gives how many."""
    return all_same(check_cases() + field_cases() + word_cases() + scrambler_cases())


if __name__ == "__main__":
    print(own_trial())
