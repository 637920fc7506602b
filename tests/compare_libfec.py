"""Compares the second coder's Reed-Solomon code and its repair with Debian's libfec, where that is installed (package
libfec0).

    python3 tests/compare_libfec.py

libfec is a third coder, with a history of its own: init_rs_char(8, 0x187, 120, 11, 16, pad) is symbols of 8 bits, the
field polynomial of 000, 2.6.3.6.3, the first root's j, the step of the roots' exponents, 16 parity bytes, and as many
zeros in front as `pad` says. It repairs by an algorithm of its own (Berlekamp and Massey's, Forney's), and refuses to
change one of those zeros. Where it is not installed this says so, and is no failure.
"""

import ctypes
import ctypes.util

from coder import codes, frames, nearest
from records import Numbers

DATA = 239
MOST_TRIED = nearest.MOST_WRONG + 2  # wrong bytes


def library():
    name = ctypes.util.find_library("fec")
    if name is None:
        return None
    fec = ctypes.CDLL(name)
    fec.init_rs_char.restype = ctypes.c_void_p
    fec.init_rs_char.argtypes = [ctypes.c_int] * 6
    fec.encode_rs_char.argtypes = [ctypes.c_void_p, ctypes.c_char_p, ctypes.c_char_p]
    fec.encode_rs_char.restype = None
    fec.decode_rs_char.argtypes = [ctypes.c_void_p, ctypes.c_char_p, ctypes.c_void_p, ctypes.c_int]
    fec.free_rs_char.argtypes = [ctypes.c_void_p]
    fec.free_rs_char.restype = None
    return fec


class Code:
    """libfec's code for data of one length."""

    def __init__(self, fec, length):
        self.fec = fec
        self.code = fec.init_rs_char(8, 0x187, 120, 11, 16, DATA - length)
        if not self.code:
            raise SystemExit("libfec: init_rs_char refused the parameters")

    def parity(self, data):
        parity = ctypes.create_string_buffer(16)
        self.fec.encode_rs_char(self.code, bytes(data), parity)
        return parity.raw

    def repaired(self, word):
        """How many bytes of the word libfec found wrong (below 0: no repair), and the word after its repair."""
        buffer = ctypes.create_string_buffer(bytes(word), len(word))
        wrong = self.fec.decode_rs_char(self.code, buffer, None, 0)
        return wrong, buffer.raw

    def free(self):
        self.fec.free_rs_char(self.code)


def damaged(numbers, word, count):
    """The word with so many bytes changed, at places that differ."""
    result = bytearray(word)
    places = list(range(len(word)))
    for _ in range(count):
        result[places.pop(numbers.below(len(places)))] ^= 1 + numbers.below(255)
    return bytes(result)


def compare(fec, numbers, length, tally):
    """Data of one length: the parity; that both call the word a codeword; and damaged by 1 to 8 bytes, that both call
    it none and that libfec leads it back to the second coder's word."""
    code = Code(fec, length)
    data = numbers.bytes(length)
    word = data + codes.parity(data)
    tally["parities"].append(code.parity(data) == codes.parity(data))
    tally["codewords"].append(codes.is_codeword(word) and code.repaired(word) == (0, word))
    for count in [1, 1 + numbers.below(8)]:
        wrong = damaged(numbers, word, count)
        tally["damaged words"].append(not codes.is_codeword(wrong) and code.repaired(wrong) == (count, word))
    code.free()


def repaired_alike(code, near, word):
    """Both repair the word to the same one, and count the same wrong bytes; or both say that there is no such word."""
    found = near(word)
    count, repaired = code.repaired(word)
    if found is None:
        return count < 0 and repaired == word
    return (count, repaired) == (nearest.differences(found, word), found)


def on_the_way(other, places):
    """Of a codeword the bytes at these places, the others 0."""
    return bytes(byte if place in places else 0 for place, byte in enumerate(other))


def some_places(numbers, places, count):
    places = list(places)
    return [places.pop(numbers.below(len(places))) for _ in range(count)]


def compare_repair(fec, numbers, length, near, results):
    """Codewords with 0 to 10 wrong bytes; and all that lies between two codewords which differ in 17 places, of which
    one or none is among the bytes that are not sent."""
    code = Code(fec, length)
    unsent = DATA - length
    for count in [*range(MOST_TRIED + 1)] * 30:
        data = numbers.bytes(length)
        word = damaged(numbers, data + codes.parity(data), count)
        results.append(repaired_alike(code, near, word))
    for turn in range(10):
        hidden = some_places(numbers, range(unsent), min(unsent, turn % 2))
        sent = some_places(numbers, range(unsent, codes.WORD), 17 - len(hidden))
        other = nearest.least_codeword([*hidden, *sent])
        data = numbers.bytes(length)
        word = data + codes.parity(data)
        for count in range(len(sent) + 1):
            error = on_the_way(other, sent[:count])[unsent:]
            results.append(repaired_alike(code, near, nearest.added(word, error)))
    code.free()


def main():
    fec = library()
    if fec is None:
        print("libfec: skipped, it is not installed (Debian: libfec0)")
        return
    numbers = Numbers(314159)
    tally = {"parities": [], "codewords": [], "damaged words": [], "repairs of words": [], "repairs of headers": []}
    for length in [*range(1, DATA + 1)] + [16] * 40 + [DATA] * 40:
        compare(fec, numbers, length, tally)
    compare_repair(fec, numbers, DATA, nearest.near_word, tally["repairs of words"])
    compare_repair(fec, numbers, frames.BARE_HEADER, nearest.near_header, tally["repairs of headers"])
    counts = ", ".join(f"{len(results)} {name}" for name, results in tally.items())
    different = sum(not result for results in tally.values() for result in results)
    print(f"libfec: {counts} compared, {different} different")
    if different:
        raise SystemExit(1)


if __name__ == "__main__":
    main()
