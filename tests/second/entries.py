"""The list of the packets received, read from any position (01, "Reading the list"; R26).

"01" is the scope paper, "R" and a number a point of READINGS.
"""

import codes
import packing

LENGTH = 2  # bytes of an entry's length


def entry(listed, position):
    """The entry at a position: number, start and length of the packet, and the position behind it."""
    end = (0, None, None, None)
    refused = (16, None, None, None)
    if position == len(listed):
        return end
    start = position + LENGTH
    if position < 0 or start > len(listed):
        return refused
    length = int.from_bytes(listed[position:start], "big")
    if not 1 <= length <= packing.PACKET or start + length > len(listed):
        return refused
    return 0, start, length, start + length


def packet(listed, position):
    """The bytes of the packet at a position; none at the end or a refusal."""
    _, start, length, _ = entry(listed, position)
    return b"" if start is None else bytes(listed[start:start + length])


def packets_of(listed):
    """All packets from position 0 on, up to the end or a refusal."""
    packets = []
    position = 0
    while entry(listed, position)[3] is not None:
        packets.append(packet(listed, position))
        position = entry(listed, position)[3]
    return packets


# Trials


def own_trial():
    """Tries every kind of position; gives how many."""
    listed = b"\0\1\xAA\0\2\xBB\xCC"
    end = (0, None, None, None)
    refused = (16, None, None, None)
    return codes.all_same([
        ("entries", [entry(listed, 0), entry(listed, 3)], [(0, 2, 1, 3), (0, 5, 2, 7)]),
        ("the end", (entry(listed, 7), packet(listed, 7), entry(b"", 0)), (end, b"", end)),
        ("past the end", (entry(listed, 8), packet(listed, 8)), (refused, b"")),
        ("one byte left", entry(listed, 6), refused),
        ("length 0", entry(b"\0\0", 0), refused),
        ("9,001", entry((9001).to_bytes(2, "big") + bytes(9001), 0), refused),
        ("9,000", entry((9000).to_bytes(2, "big") + bytes(9000), 0), (0, 2, 9000, 9002)),
        ("cut short", entry(listed[:6], 3), refused),
        ("packets", packets_of(listed), [b"\xAA", b"\xBB\xCC"]),
    ])


if __name__ == "__main__":
    print(own_trial())
