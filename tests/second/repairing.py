"""The repair call on the 2,072 bytes behind the preamble, and what it and opening do with damaged frames.

"01" is the scope paper, "02" the paper of change requests.
"""

import random

import codes
import frames
import nearest
from frames import PART, open_frame


def repair(taps, part, scratch):
    """The number, how many bytes were wrong, and the scratch after the call. 02, M-101: the first number that applies
    in the order 1, 2, 8, 12, and no check sum is judged; where a byte was wrong the scratch then begins with the
    repaired part, scrambled as it came."""
    kept = bytes(scratch)
    if not codes.are_taps(taps):
        return 1, 0, kept
    if len(part) != PART or len(scratch) < PART:
        return 2, 0, kept
    coded, payload = frames.repaired_parts(taps, part)
    if coded is None:
        return 8, 0, kept
    if payload is None:
        return 12, 0, kept
    repaired = codes.scramble(taps, coded + payload)
    count = nearest.differences(part, repaired)
    return 0, count, kept if count == 0 else repaired + kept[PART:]


def shown(number, count, part, scratch):
    """What a repair that answered so hands back: the part itself where nothing was wrong, otherwise the first bytes of
    the scratch; nothing after a refusal, or where the scratch could not have held them."""
    if number != 0:
        return b""
    if count == 0:
        return bytes(part)
    return bytes(scratch[:PART]) if len(scratch) >= PART else b""


# Trials


TAPS = 0b1001
HEADER = frames.Header(0x1234, frames.DATA, 0xFFFF, 1, 1, 1, 59, 3, frames.Message(5, (2, 1, 2)))
AREA = random.Random(101).randbytes(codes.AREA)
SCRATCH = bytes(range(200)) * 11


def added_to_word(frame, word, error):
    """The frame with an error added to one of its nine words: 0 to 7 of the payload, 8 the header. Under the scrambler
    an error stays what it is."""
    part = bytearray(frame[-PART:])
    places = range(frames.CODED_HEADER) if word == 8 else range(frames.CODED_HEADER + word, PART, codes.WORDS)
    for place, change in zip(places, error, strict=True):
        part[place] ^= change
    return frame[:-PART] + bytes(part)


def length_of(word):
    """Of one of the nine words as it is sent."""
    return frames.CODED_HEADER if word == 8 else codes.WORD


def taken(taps, frame):
    """What opening answers, and what repairing the frame's part does: number, count, what is shown, the scratch."""
    part = frame[-PART:]
    number, count, scratch = repair(taps, part, SCRATCH)
    return open_frame(taps, frame, codes.AREA), (number, count, shown(number, count, part, scratch), scratch)


def as_sent(frame, count):
    """The same of a frame that was sent and then damaged in so many bytes that it can be repaired."""
    part = frame[-PART:]
    return (0, HEADER, AREA, count), (0, count, part, part + SCRATCH[PART:] if count else SCRATCH)


def repaired_cases():
    """0 to 8 wrong bytes in each of the nine words, with many taps; then in all of them at once."""
    chance = random.Random(72)
    cases = []
    for turn, count in enumerate(range(nearest.MOST_WRONG + 1)):
        taps = [1, TAPS, 2 ** 25 - 1, 2 * chance.randrange(2 ** 24) + 1][turn % 4]
        frame = frames.build(taps, HEADER, AREA)
        everywhere = frame
        for word in range(9):
            error = nearest.some_error(chance, length_of(word), count)
            everywhere = added_to_word(everywhere, word, error)
            found = taken(taps, added_to_word(frame, word, error))
            cases.append((f"{count} wrong of word {word}", found, as_sent(frame, count)))
        cases.append((f"{count} wrong of each word", taken(taps, everywhere), as_sent(frame, 9 * count)))
    return cases


def hopeless_cases():
    """9 wrong bytes in one word, 8 in the others: never accepted, and no byte of the scratch changes at a refusal."""
    chance = random.Random(73)
    frame = frames.build(TAPS, HEADER, AREA)
    cases = []
    for word in range(9):
        spoiled = frame
        for other in range(9):
            error = nearest.some_error(chance, length_of(other), 9 if other == word else 8)
            spoiled = added_to_word(spoiled, other, error)
        number = 8 if word == 8 else 12
        wanted = (number, None, None, None), (number, 0, b"", SCRATCH)
        cases.append((f"9 wrong of word {word}", taken(TAPS, spoiled), wanted))
    return cases


def near_another_cases():
    """9 wrong bytes of a word that lie within 8 of another codeword: right for repair, and refused by a check sum."""
    frame = frames.build(TAPS, HEADER, AREA)
    cases = []
    for word, number in [(8, 9), (0, 13), (5, 13), (7, 13)]:
        other = nearest.least_codeword(range(230, 247))[-length_of(word):]
        nine = other[:-16] + bytes(16)  # the bytes from 230 to 238
        opened, repaired = taken(TAPS, added_to_word(frame, word, nine))
        instead = added_to_word(frame, word, other)[-PART:]
        cases.append((f"near another, word {word}, opened", opened[0], number))
        cases.append((f"near another, word {word}", repaired, (0, 8, instead, instead + SCRATCH[PART:])))
    return cases


def unsent_cases():
    """The header near a codeword that changes an unsent byte: no codeword that near, and so 8 of both calls."""
    frame = frames.build(TAPS, HEADER, AREA)
    other = nearest.least_codeword([100, *range(223, 239)])[-frames.CODED_HEADER:]
    cases = []
    for count in range(17):
        on_the_way = other[:count] + bytes(frames.CODED_HEADER - count)
        found = taken(TAPS, added_to_word(frame, 8, on_the_way))
        wanted = as_sent(frame, count) if count <= 8 else ((8, None, None, None), (8, 0, b"", SCRATCH))
        cases.append((f"{count} wrong on the way to an unsent byte", found, wanted))
    return cases


def order_cases():
    """Opening's order: 9 and 11 of the repaired header before 12 and 13, and none of them behind 7 or 8."""
    good, payload_data = frames.header_bytes(HEADER), codes.payload_data_of(AREA)
    wrong_check = good[:14] + bytes(2)
    no_lock = frames.with_check(good[:11] + bytes([0xB1, 0x02, 0x00]))
    wrong_data = payload_data[:-1] + bytes([payload_data[-1] ^ 1])
    cases = []
    for sixteen, of_the_header in [(good, 0), (wrong_check, 9), (no_lock, 11)]:
        for data, of_the_sum in [(payload_data, 0), (wrong_data, 13)]:
            frame = frames.damaged_header(frames.recoded(TAPS, sixteen, data), 8)
            for word in [0, 6]:
                near, hopeless = (frames.damaged_word(frame, word, count) for count in [8, 9])
                found = [open_frame(TAPS, one, codes.AREA)[0] for one in [near, hopeless]]
                wanted = [of_the_header or of_the_sum, of_the_header or 12]
                cases.append((f"{of_the_header} and {of_the_sum}, word {word}", found, wanted))
                found = [repair(TAPS, one[-PART:], SCRATCH)[:2] for one in [near, hopeless]]
                cases.append((f"{of_the_header} and {of_the_sum}, word {word}, repaired", found, [(0, 16), (12, 0)]))
            hopeless = frames.damaged(frames.damaged_word(frame, 0, 9), 20)
            cases.append(("8 first", open_frame(TAPS, hopeless, codes.AREA)[0], 8))
            cases.append(("7 first", open_frame(TAPS, frames.damaged(hopeless, 0), codes.AREA)[0], 7))
    return cases


def argument_cases():
    """1 before 2, 2 before all that the bytes decide; part and scratch at the borders of their lengths."""
    frame = frames.build(TAPS, HEADER, AREA)
    part = frame[-PART:]
    spoiled = frames.damaged_word(frames.damaged_header(frame, 9), 0, 9)[-PART:]
    cases = []
    for taps in [0, TAPS - 1, 2 ** 25, TAPS + 2 ** 25]:
        for given, room in [(part, PART), (part[1:], PART), (part, PART - 1), (spoiled, PART), (b"", 0)]:
            cases.append((f"taps {taps}", repair(taps, given, SCRATCH[:room]), (1, 0, SCRATCH[:room])))
    for given in [b"", part[:-1], part + b"x", spoiled[:-1]]:
        cases.append((f"a part of {len(given)}", repair(TAPS, given, SCRATCH), (2, 0, SCRATCH)))
    for room in [0, PART - 1]:
        for given in [part, spoiled, part[1:]]:
            cases.append((f"a scratch of {room}", repair(TAPS, given, SCRATCH[:room]), (2, 0, SCRATCH[:room])))
    damaged = frames.damaged_word(frame, 3, 5)[-PART:]
    for room in [PART, PART + 1, PART + 28]:
        cases.append((f"a scratch of {room}", repair(TAPS, damaged, SCRATCH[:room]), (0, 5, part + SCRATCH[PART:room])))
    return cases + shown_cases(part)


def shown_cases(part):
    """What is shown after any answer, with a part and a scratch of any length."""
    return [
        ("shown, nothing wrong", shown(0, 0, part, b""), part),
        ("shown, nothing wrong, another length", shown(0, 0, part[:5], SCRATCH), part[:5]),
        ("shown, repaired", shown(0, 72, b"", SCRATCH), SCRATCH[:PART]),
        ("shown, repaired, just enough", shown(0, 1, part, SCRATCH[:PART]), SCRATCH[:PART]),
        ("shown, repaired, a byte less", shown(0, 1, part, SCRATCH[:PART - 1]), b""),
        ("shown, refused", [shown(number, 0, part, SCRATCH) for number in [1, 2, 8, 12]], [b""] * 4),
    ]


def own_trial():
    """Tries the repair of whole frames, and each refusal before the others; gives how many."""
    cases = repaired_cases() + hopeless_cases() + near_another_cases() + unsent_cases()
    return codes.all_same(cases + order_cases() + argument_cases())


if __name__ == "__main__":
    print(own_trial())
