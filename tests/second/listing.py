"""The listing program: frames from standard input through one receiver, fresh at the start, one line for each.

"01" is the scope paper, "R" and a number a point of READINGS.
"""

import sys

import codes
import frames
import receiver
import sender

HEAD = "frame txfn kind missed packets"
KINDS = ["idle", "data", "type2", "type3"]


def listing(data, taps=0b1001):
    """The whole text for these input bytes; a short last piece is a frame too, and is refused as one (R27)."""
    lines = [HEAD]
    state = receiver.FRESH
    hold = bytes(receiver.HOLD)
    output = bytes(receiver.LIST_OUTPUT)
    pieces = [data[start:start + frames.FRAME] for start in range(0, len(data), frames.FRAME)]
    for place, piece in enumerate(pieces):
        number, answer, state, hold, output = receiver.open_and_apply(taps, piece, state, hold, output)
        if number != 0:
            lines.append(f"{place} refused {number}")
        else:
            kind = KINDS[answer.header.type]
            lines.append(f"{place} {answer.header.txfn} {kind} {answer.missed} {answer.packets}")
    return "".join(line + "\n" for line in lines)


# Trials


def sent_frames(count, packets):
    """The first frames of a fresh sender; the packets of place k are put before frame k."""
    state, queue = sender.FRESH, bytes(32768)
    sent = []
    for k in range(count):
        for packet in packets.get(k, []):
            _, state, queue = sender.put(queue, state, packet)
        _, state, queue, frame = sender.next_frame(0b1001, sender.FIELDS, state, queue, bytes(frames.FRAME))
        sent.append(frame)
    return sent


def own_trial():
    """Tries 01's listing, and inputs with a gap, a short piece, other types and nothing; gives how many."""
    head = HEAD + "\n"
    two = sent_frames(2, {1: [b"\xAA"]})
    long = sent_frames(4, {1: [bytes(4000), b"x"]})
    eight_wrong, nine_wrong = frames.damaged_word(long[2], 5, 8), frames.damaged_word(long[3], 5, 9)
    other = frames.build(0b1001, sender.FIELDS._replace(txfn=9, type=3), bytes(codes.AREA))
    return codes.all_same([
        ("01's two frames", listing(b"".join(two)), head + "0 0 idle 0 0\n1 1 data 0 1\n"),
        ("no input", listing(b""), head),
        ("a short piece", listing(two[0] + b"\x77"), head + "0 0 idle 0 0\n1 refused 2\n"),
        ("a long packet and a short one", listing(b"".join(long)),
         head + "0 0 idle 0 0\n1 1 data 0 0\n2 2 data 0 0\n3 3 data 0 2\n"),
        ("8 wrong bytes of a word, then 9", listing(long[0] + long[1] + eight_wrong + nine_wrong),
         head + "0 0 idle 0 0\n1 1 data 0 0\n2 2 data 0 0\n3 refused 12\n"),
        ("a gap in a long packet", listing(long[0] + long[1] + bytes(2081) + long[3]),
         head + "0 0 idle 0 0\n1 1 data 0 0\n2 refused 7\n3 3 data 1 1\n"),
        ("type 3", listing(two[0] + other), head + "0 0 idle 0 0\n1 9 type3 8 0\n"),
    ])


if __name__ == "__main__":
    sys.stdout.write(listing(sys.stdin.buffer.read()))
