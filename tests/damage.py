"""Damage to a frame: functions on its parts, each with the stage on the frame's way at which it is done; and errors,
the bytes that are added modulo 2 to a word on its way."""

from coder import codes, frames, nearest, repairing
from records import changed

AREA = codes.AREA

OF_THE_FRAME = [7, 8, 9, 11, 12, 13]  # the refusals of a frame's own bytes
NINE_WORDS = range(9)  # the payload's words 0 to 7, and 8, the header
MOST_WRONG = nearest.MOST_WRONG
length_of = repairing.length_of


def damaged(sent, damage):
    def through(stage, part):
        for at, function in damage:
            part = function(part) if at == stage else part
        return part

    fourteen = through("fourteen", frames.header_bytes(sent.header)[:14])
    sixteen = through("sixteen", frames.with_check(fourteen))
    coded = through("coded", frames.coded_header(sixteen))
    data = through("data", codes.payload_data_of(sent.area))
    payload = through("payload", codes.code_payload(data))
    return frames.frame_of(sent.taps, coded, payload, through("preamble", frames.PREAMBLE))


def flip(stage, place, change):
    return stage, lambda part: changed(part, place, change)


# ---------------------------------------------------------------------------------------------------------------------
# Errors of one of the nine words.


def some_error(numbers, word, count, among=None):
    """So many wrong bytes, at places that differ, anywhere or among those that are given."""
    places = list(range(length_of(word)) if among is None else among)
    error = bytearray(length_of(word))
    for _ in range(count):
        error[places.pop(numbers.below(len(places)))] = 1 + numbers.below(255)
    return bytes(error)


def near(word, error):
    """The codeword near the error, or None. As the sum of two codewords is one, this tells the same of every codeword
    with this error."""
    return nearest.near_header(error) if word == 8 else nearest.near_word(error)


def hopeless_error(numbers, word, among=None):
    """Nine wrong bytes, drawn again where a codeword is near them, as one in some 48,000 is."""
    while True:
        error = some_error(numbers, word, MOST_WRONG + 1, among)
        if near(word, error) is None:
            return error


def add(word, error):
    """The error comes to its word behind the coding."""
    if word == 8:
        return "coded", lambda part: nearest.added(part, error)
    spread = bytearray(codes.PAYLOAD)
    spread[word :: codes.WORDS] = error
    return "payload", lambda part: nearest.added(part, spread)


def little_damage(numbers, but=()):
    """Up to 8 wrong bytes in one of the words, in two or in all, but for those that are named; and how many in all."""
    words = [word for word in NINE_WORDS if word not in but]
    wanted = [1, 2, len(words)][numbers.below(3)]
    while len(words) > wanted:
        words.pop(numbers.below(len(words)))
    counts = [numbers.below(MOST_WRONG + 1) for _ in words]
    return [add(word, some_error(numbers, word, count)) for word, count in zip(words, counts)], sum(counts)


# ---------------------------------------------------------------------------------------------------------------------
# Damage that is refused.


def set_fields(**values):
    """Fields of Table 2-10 with other values; a hyphen is written as two underscores."""
    amended = {name.replace("__", "-"): value for name, value in values.items()}
    return "fourteen", lambda part: frames.bytes_by_table(frames.values_by_table(part) | amended)


def broken_rules():
    """Everything that 11 judges."""
    damage = [set_fields(ACK__valid=0, RXFN=rxfn) for rxfn in [1, 0x100, 0xFFFF]]
    for opcode in frames.WITH_LOCK:
        damage += [set_fields(FCCH_OPCODE=opcode, FCCH_PL=payload) for payload in [2, 3, 0x1042, 0xFFFF]]
    for opcode in range(7, 15):
        damage += [set_fields(FCCH_OPCODE=opcode, FCCH_PL=payload) for payload in [1 << opcode, 0xFFFF]]
    return damage + [set_fields(FCCH_OPCODE=15, FCCH_PL=payload) for payload in [0, 0xFFFE, 0x7FFF]]


def some_damage(numbers):
    """One for each number, so that each applies whatever the others do: check sums and parities are made anew behind
    a change, and the header and a payload word have an error that is hopeless."""

    def some():
        return 1 + numbers.below(255)

    def hopeless_in(word):
        return add(word, hopeless_error(numbers, word))

    return {
        7: flip("preamble", numbers.below(9), some()),
        8: hopeless_in(8),
        9: flip("sixteen", 14 + numbers.below(2), some()),
        11: set_fields(ACK__valid=0, RXFN=some()),
        12: hopeless_in(numbers.below(codes.WORDS)),
        13: flip("data", AREA + numbers.below(4), some()),
    }


def damage_of_each_number(numbers, rules):
    """Pairs of the number that is meant and the damage."""
    for place in range(9):
        yield 7, flip("preamble", place, 1 << numbers.below(8))
    for among in [None, None, None, range(9), range(12, 21), range(16, 32), range(23, 32)]:
        yield 8, add(8, hopeless_error(numbers, 8, among))
    yield 9, ("sixteen", lambda part: part[:14] + part[:13:-1])
    for place in [14, 15]:
        yield 9, flip("sixteen", place, 1 << numbers.below(8))
    for damage in rules:
        yield 11, damage
    for word in range(codes.WORDS):
        yield 12, add(word, hopeless_error(numbers, word))
    for word, among in [(0, range(9)), (4, range(230, 239)), (5, range(235, 244)), (7, range(246, 255))]:
        yield 12, add(word, hopeless_error(numbers, word, among))
    yield 13, ("data", lambda part: part[:AREA] + part[: AREA - 1 : -1])
    for place in [0, numbers.below(AREA), AREA - 1, AREA, AREA + 3]:
        yield 13, flip("data", place, 1 << numbers.below(8))
