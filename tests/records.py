"""The form of a record of crates/trials/stdin; messages with a byte or a bit of their own; and numbers to try with.

A record is the kind, one byte, the length of the body, two bytes, and the body. Numbers stand high byte first. The
kind of a planted record is 64 more: what it expects is wrong, and it has to come out as different.
"""

PLANTED = 64


def record(kind, *parts):
    body = b"".join(parts)
    return bytes([kind]) + len(body).to_bytes(2, "big") + body


def planted(one, amended=lambda body: body):
    """A record with its body amended, or one that is wrong as it is, which has to come out as different."""
    return record(PLANTED + one[0], amended(one[3:]))


def one_bit(length, place):
    """A message of zeros but for one bit; place 0 is the top bit of the first byte."""
    return (1 << (8 * length - 1 - place)).to_bytes(length, "big")


def changed(message, place, change):
    """The message with one byte changed."""
    return message[:place] + bytes([message[place] ^ change]) + message[place + 1 :]


def with_bit_changed(message, place):
    return changed(message, place // 8, 0x80 >> place % 8)


class Numbers:
    """Marsaglia's xorshift generator of 32 bits, shifts 13, 17, 5; of our own, so that no version of Python changes its
    numbers. The seed is not 0."""

    def __init__(self, seed):
        self.state = seed

    def next(self):
        x = self.state
        x ^= x << 13 & 0xFFFFFFFF
        x ^= x >> 17
        x ^= x << 5 & 0xFFFFFFFF
        self.state = x
        return x

    def below(self, bound):
        return (self.next() >> 8) % bound

    def bytes(self, count):
        return bytes(self.below(256) for _ in range(count))

    def taps(self):
        """Taps that are allowed: an odd number of 25 bits."""
        return 2 * self.below(2**24) + 1


def digest(message):
    """FNV-1a of 64 bits, which stands in for bytes that are too many to be stored."""
    number = 0xCBF29CE484222325
    for byte in message:
        number = (number ^ byte) * 0x100000001B3 & 0xFFFFFFFFFFFFFFFF
    return number.to_bytes(8, "big")


def changes(before, after):
    """The places where two messages differ, 2 bytes, each with what is added modulo 2 to the byte there."""
    places = [place for place, (a, b) in enumerate(zip(before, after)) if a != b]
    return b"".join(place.to_bytes(2, "big") + bytes([before[place] ^ after[place]]) for place in places)
