"""The codeword near a word that arrived, found by solving linear equations over the field (Peterson's way).

"01" is the scope paper, "02" the paper of change requests, "000" the OISL Standard 2.1.2.

What arrived is a codeword with an error added to it. The codeword is 0 at the code's roots, so what the word has there,
its syndromes, is the error's alone. A wrong byte at the power p of the word gives its value times X^j to the syndrome
of the root 2^(11 j), where X = 2^(11 p) is its locator. The syndromes of few wrong bytes are a recurrence whose
polynomial is 0 at their locators: its coefficients solve linear equations, and so do then the wrong bytes' values.
"""

import functools
import random

import codes

MOST_WRONG = 8  # differences up to which a word is repaired (02, M-101)
EXPONENTS = range(120, 136)  # j of the roots 2^(11 j) (000, 2.6.3.6.3)


@functools.lru_cache(maxsize=None)
def inverse(element):
    """The element that gives 1 when multiplied with this one, by trial."""
    return next(other for other in range(1, 256) if codes.product(element, other) == 1)


def solution(equations, unknowns):
    """The only solution of linear equations, each given by its coefficients and its right side; None where there is
    none, or more than one. By elimination: each unknown is taken out of all equations but one."""
    rows = [list(equation) for equation in equations]
    for column in range(unknowns):
        pivot = next((place for place in range(column, len(rows)) if rows[place][column] != 0), None)
        if pivot is None:
            return None
        rows[column], rows[pivot] = rows[pivot], rows[column]
        factor = inverse(rows[column][column])
        rows[column] = [codes.product(factor, entry) for entry in rows[column]]
        for place, row in enumerate(rows):
            if place != column:
                rows[place] = [entry ^ codes.product(row[column], own) for entry, own in zip(row, rows[column])]
    if any(row[unknowns] != 0 for row in rows[unknowns:]):
        return None
    return [row[unknowns] for row in rows[:unknowns]]


def locator_polynomial(syndromes):
    """The shortest recurrence of the syndromes: s(k) c(0) + ... + s(k+n-1) c(n-1) = s(k+n) for every k. Gives the
    polynomial c(0) + c(1) x + ... + x^n, lowest power first; None where more than 8 coefficients would be needed."""
    for count in range(MOST_WRONG + 1):
        equations = [syndromes[k:k + count + 1] for k in range(len(syndromes) - count)]
        coefficients = solution(equations, count)
        if coefficients is not None:
            return coefficients + [1]
    return None


def powers_in_error(polynomial, length):
    """The powers of a word whose locator makes the polynomial 0, each of them tried."""
    return [p for p in range(length) if codes.value_at(polynomial[::-1], codes.power(11 * p)) == 0]


def error_values(powers, syndromes):
    """What is added to the bytes at these powers: 16 equations, one for each root; None where nothing solves them."""
    equations = [
        [codes.power(11 * p * j) for p in powers] + [syndrome] for j, syndrome in zip(EXPONENTS, syndromes)
    ]
    return solution(equations, len(powers))


def candidate(word):
    """The word without the error that the equations give; None where they give none."""
    syndromes = [codes.value_at(word, root) for root in codes.ROOTS]
    polynomial = locator_polynomial(syndromes)
    if polynomial is None:
        return None
    powers = powers_in_error(polynomial, len(word))
    values = error_values(powers, syndromes)
    if values is None:
        return None
    without_error = bytearray(word)
    for p, value in zip(powers, values):
        without_error[len(word) - 1 - p] ^= value
    return bytes(without_error)


def differences(left, right):
    """How many places there are where two words of one length differ."""
    return sum(one != other for one, other in zip(left, right, strict=True))


def near_word(word):
    """The codeword within 8 differences of the word, or None; there is at most one, since two codewords differ in 17
    places or more. Whatever the equations gave, only a codeword that near is taken (02, M-101)."""
    if codes.is_codeword(word):
        return bytes(word)
    found = candidate(word)
    if found is None or not codes.is_codeword(found) or differences(found, word) > MOST_WRONG:
        return None
    return found


def near_header(header):
    """The same of a coded header with its unsent zeros in front. They count as correct (02, M-101): a codeword that
    changes one of them is none."""
    unsent = bytes(codes.WORD - len(header))
    found = near_word(unsent + bytes(header))
    if found is None or found[:len(unsent)] != unsent:
        return None
    return found[len(unsent):]


def near_payload(payload):
    """The payload with each of its eight words, every eighth byte, as the codeword near it; None where one has none."""
    words = [near_word(payload[k::codes.WORDS]) for k in range(codes.WORDS)]
    if None in words:
        return None
    return bytes(words[k % codes.WORDS][k // codes.WORDS] for k in range(codes.PAYLOAD))


# Trials


def some_error(chance, length, count):
    """Zeros but for so many bytes."""
    error = bytearray(length)
    for place in chance.sample(range(length), count):
        error[place] = chance.randrange(1, 256)
    return bytes(error)


def added(word, error):
    """The sum of two words of one length."""
    return bytes(one ^ other for one, other in zip(word, error, strict=True))


def least_codeword(places):
    """A codeword of 255 bytes that is not 0 at 17 given places, and 0 at all others: the byte at the first place is 1,
    and the others solve the equations of the 16 roots. No codeword but zeros has fewer such bytes (000, 2.6.3.6.3)."""
    first, *others = (codes.WORD - 1 - place for place in places)
    equations = [[codes.power(11 * p * j) for p in others] + [codes.power(11 * first * j)] for j in EXPONENTS]
    word = bytearray(codes.WORD)
    for place, value in zip(places, [1] + solution(equations, len(others))):
        word[place] = value
    return bytes(word)


def equation_cases():
    """Equations with one solution, with none, with more than one; and every element's inverse."""
    rows = [[1, 1, 3], [1, 2, 5]]
    return [
        ("two equations", solution(rows, 2), [1, 2]),
        ("the first coefficient 0", solution([[0, 1, 7], [1, 0, 9]], 2), [9, 7]),
        ("one that follows", solution(rows + [[0, 3, 6]], 2), [1, 2]),
        ("one that contradicts", solution(rows + [[0, 3, 7]], 2), None),
        ("too few", solution(rows[:1], 2), None),
        ("the same twice", solution([rows[0], rows[0]], 2), None),
        ("no unknown", [solution([[0], [0]], 0), solution([[0], [1]], 0)], [[], None]),
        ("inverses", {codes.product(element, inverse(element)) for element in range(1, 256)}, {1}),
    ]


def count_cases():
    """Words of many lengths with 0 to 8 wrong bytes, also all of them at one end; coded headers likewise."""
    chance = random.Random(8)
    cases = []
    for length in [17, 18, 32, 100, codes.WORD, codes.WORD]:
        data = chance.randbytes(length - codes.WORD_PARITY)
        word = data + codes.parity(data)
        for count in range(MOST_WRONG + 1):
            ends = b"\xFF" * count + bytes(length - count)
            for error in [some_error(chance, length, count), ends, ends[::-1]]:
                cases.append((f"{count} wrong of {length}", near_word(added(word, error)), word))
                if length == 32:
                    cases.append((f"{count} wrong of a header", near_header(added(word, error)), word))
    return cases


def exhaustive_cases():
    """All 256 codewords of 17 bytes beside the word: the one within 8 differences is found, or there is none."""
    chance = random.Random(17)
    every = [bytes([byte]) + codes.parity([byte]) for byte in range(256)]
    cases = []
    for count in [*range(18)] * 12:
        word = added(chance.choice(every), some_error(chance, 17, count))
        near = [one for one in every if differences(one, word) <= MOST_WRONG]
        cases.append((f"{count} wrong of 17, all codewords tried", [near_word(word)], near or [None]))
    return cases


def halfway_cases():
    """Between two codewords that differ in 17 places: the one 8 differences away is taken, and not the one 9 away."""
    chance = random.Random(9)
    cases = []
    for places in [range(17), range(238, 255), chance.sample(range(255), 17), chance.sample(range(223, 255), 17)]:
        other = least_codeword(places)
        cases.append(("a least codeword", [codes.is_codeword(other), 255 - other.count(0)], [True, 17]))
        for count in range(18):
            between = bytearray(255)
            for place in chance.sample(list(places), count):
                between[place] = other[place]
            nearer = bytes(255) if count <= 8 else other
            cases.append((f"{count} of 17 on the way", near_word(between), nearer))
            if min(places) >= 223:
                cases.append((f"{count} of 17 on a header's way", near_header(between[223:]), nearer[223:]))
    return cases


def unsent_cases():
    """A codeword with one byte among the unsent ones: near the word with its zeros, and not near the header."""
    chance = random.Random(223)
    cases = []
    for unsent in [0, 111, 222]:
        sent_places = chance.sample(range(223, 255), 16)
        other = least_codeword([unsent, *sent_places])
        for count in range(17):
            between = bytearray(255)
            for place in sent_places[:count]:
                between[place] = other[place]
            word, header = (bytes(255), bytes(32)) if count <= 8 else (other, None)
            cases.append((f"byte {unsent} unsent, {count} on the way", near_word(between), word))
            cases.append((f"byte {unsent} unsent, {count} on a header's way", near_header(between[223:]), header))
    return cases


def hopeless_cases():
    """9 to 255 wrong bytes, of which one word in some 48,000 would be near another codeword: none of these is."""
    chance = random.Random(255)
    errors = {count: some_error(chance, codes.WORD, count) for count in [*range(9, 30), 60, 120, 255]}
    return [(f"{count} wrong bytes", near_word(error), None) for count, error in errors.items()]


def payload_cases():
    """The eight words are every eighth byte, and one without a codeword spoils the payload."""
    chance = random.Random(2040)
    payload = codes.code_payload(chance.randbytes(codes.PAYLOAD_DATA))
    in_a_row = bytes(codes.PAYLOAD - 64) + b"\1" * 64
    cases = [("8 wrong of each word", near_payload(added(payload, in_a_row)), payload)]
    for k in range(codes.WORDS):
        nine = bytearray(codes.PAYLOAD)
        nine[k::codes.WORDS] = some_error(chance, codes.WORD, 9)
        cases.append((f"9 wrong of word {k}", near_payload(added(payload, nine)), None))
    return cases


def own_trial():
    """Tries the search for the near codeword; gives how many cases."""
    cases = equation_cases() + count_cases() + exhaustive_cases() + halfway_cases()
    return codes.all_same(cases + unsent_cases() + hopeless_cases() + payload_cases())


if __name__ == "__main__":
    print(own_trial())
