"""Writes the sample capture that the listing program is run on, crates/listing/stdin, and the second coder's own listing
of it, crates/listing/stdout: the check holds what the program prints to that.

    python3 tests/write_capture.py            writes the two files
    python3 tests/write_capture.py --check    compares them with those that are there

The capture begins with the scope paper's example: a fresh sender's IDLE, then its frame with packet AA.
"""

import sys
from pathlib import Path

from coder import codes, frames, packing, repairing, sender
from damage import NINE_WORDS, OF_THE_FRAME, damaged, some_damage, some_error
from frame_vectors import AREA, BENCH_TAPS, FRAME, Sent, with_reserved
from header_vectors import some_header
from records import Numbers

import listing  # of the second coder: coder has put its folder on the path

FOLDER = Path(__file__).resolve().parent.parent / "crates" / "listing"
EXAMPLE = "frame txfn kind missed packets\n0 0 idle 0 0\n1 1 data 0 1\n"
LONGEST = AREA - packing.MARK  # bytes of a record that fills an area


class Bench:
    """A sender of the second coder, and what arrives of its frames."""

    def __init__(self, numbers):
        self.numbers = numbers
        self.state, self.queue = sender.FRESH, bytes(packing.QUEUE)
        self.arrived = []

    def put(self, *lengths):
        for length in lengths:
            number, self.state, self.queue = sender.put(self.queue, self.state, self.numbers.bytes(length))
            assert number == 0, number

    def next(self, fields=None):
        fields = fields or some_header(self.numbers, 0, self.numbers.below(9))
        room = bytes(FRAME)
        number, self.state, self.queue, frame = sender.next_frame(BENCH_TAPS, fields, self.state, self.queue, room)
        assert number == 0, number
        return frame

    def arrive(self, count=1):
        self.arrived += [self.next() for _ in range(count)]

    def arrive_all(self):
        """Until nothing waits any more."""
        while self.state.used > 0:
            self.arrive()

    def lose(self, count):
        for _ in range(count):
            self.next()

    def arrive_again(self):
        self.arrived.append(self.arrived[-1])

    def arrive_damaged(self, number):
        """The next frame, with the damage that is refused with this number."""
        _, header, area, _ = frames.open_frame(BENCH_TAPS, self.next(), AREA)
        found = damaged(Sent(BENCH_TAPS, header, area), [some_damage(self.numbers)[number]])
        assert frames.open_frame(BENCH_TAPS, found, AREA)[0] == number
        self.arrived.append(found)

    def arrive_repairable(self, counts):
        """The next frame, with so many wrong bytes in each of these words."""
        frame = self.next()
        for word, count in counts.items():
            frame = repairing.added_to_word(frame, word, some_error(self.numbers, word, count))
        assert frames.open_frame(BENCH_TAPS, frame, AREA)[3] == sum(counts.values())
        self.arrived.append(frame)

    def arrive_with(self, area, frame_type=frames.DATA):
        """A frame that no sender of ours builds, with the sender's next number."""
        header = some_header(self.numbers, frame_type, self.numbers.below(9))._replace(txfn=self.state.next)
        self.state = self.state._replace(next=(self.state.next + 1) % 65536)
        self.arrived.append(frames.build(BENCH_TAPS, header, area))

    def record(self, first, last, length):
        return packing.mark(first, last, length) + self.numbers.bytes(length)

    def arrive_records(self, *records):
        self.arrive_with(b"".join(self.record(*one) for one in records).ljust(AREA, b"\x00"))


def example(bench):
    """Of the scope paper: all fields 0, the fast channel absent."""
    bench.arrived.append(bench.next(sender.FIELDS))
    number, bench.state, bench.queue = sender.put(bench.queue, bench.state, b"\xaa")
    assert number == 0, number
    bench.arrived.append(bench.next(sender.FIELDS))


def whole_packets(bench):
    """Short ones, several in a frame, long ones over up to five frames, and an IDLE behind them."""
    bench.put(1, 2, 1903, 1906, 1907, 9000, 3, 40)
    bench.arrive_all()
    bench.arrive()


def damage(bench):
    """Each refusal of a frame's own bytes, in the middle of a long packet with a short one behind it, which comes out."""
    for number in OF_THE_FRAME:
        bench.put(4000, 1 + bench.numbers.below(30))
        bench.arrive()
        bench.arrive_damaged(number)
        bench.arrive_all()


def repaired_bytes(bench):
    """Frames with bytes that are repaired, of a packet that comes out whole, of two behind it, and of none (02, M-101):
    one byte of a word, one of the header, 8 of a word, 8 of the header, 8 of each of the nine."""
    before = len(bench.arrived)
    bench.put(9000, 5, 1900)
    for counts in [{3: 1}, {8: 1}, {6: 8}, {8: 8}, dict.fromkeys(NINE_WORDS, 8), {0: 2, 7: 3, 8: 4}]:
        bench.arrive_repairable(counts)
    bench.arrive_repairable({5: 8, 8: 2})
    lines = listing.listing(b"".join(bench.arrived[before:])).splitlines()[1:]
    assert [line.split()[2:] for line in lines] == [["data", "0", str(packets)] for packets in [0, 0, 0, 0, 2, 1]] + [
        ["idle", "0", "0"]
    ], lines


def against_the_rules(bench):
    """Areas that are refused with 14: no record, a mark with a bit too many, a record past the end, bytes behind the
    end, a later record without "first", an earlier one without "last"."""
    bench.put(4000)
    bench.arrive()
    for front in ["", "C801AA", "C77300", "C001AA000001", "C001AA4001BB", "8001AAC001BB"]:
        bench.arrive_with(bytes.fromhex(front).ljust(AREA, b"\x00"))
    bench.arrive_all()


def too_long(bench):
    """9,000 bytes are a packet; 9,001 are refused with 15, and so is a held part of more than 8,999."""
    for ending in [(False, True, 1376), (False, True, 1377), (False, False, LONGEST)]:
        bench.arrive_records((True, False, LONGEST))
        for _ in range(3):
            bench.arrive_records((False, False, LONGEST))
        bench.arrive_records(ending)
    bench.arrive()


def gaps(bench):
    """Frames that are missing, few and many, within a packet and between packets; and one that comes twice."""
    for missing in [1, 3, 40]:
        bench.put(9000, 7, 2500)
        bench.arrive(2)
        bench.lose(missing)
        bench.put(10)
        bench.arrive_all()
        bench.arrive()
    bench.put(3000)
    bench.arrive()
    bench.arrive_again()
    bench.arrive_all()


def other_types(bench):
    """Types 2 and 3 between the frames of one packet: they are counted, and not looked into."""
    bench.put(5000)
    bench.arrive()
    bench.arrive_with(bench.numbers.bytes(AREA), 2)
    bench.arrive()
    bench.arrive_with(bytes(AREA), 3)
    bench.arrive_all()


def past_the_last_number(bench):
    """A packet over the frames 65,534, 65,535, 0 and 1, and one that misses frame 0 of the next round."""
    for missing in [0, 1]:
        bench.state = bench.state._replace(next=65534)
        bench.put(6000, 8)
        bench.arrive(2)
        bench.lose(missing)
        bench.arrive_all()


def other_reserved_bits(bench):
    """Packets of another maker's terminal, which clears the reserved bits, all and one by one (02, M-100)."""
    bench.put(9000, 5, 4000)
    for reserved in [0, *(frames.ALL_ONES - 2**bit for bit in range(7))]:
        bench.arrived.append(with_reserved(BENCH_TAPS, bench.next(), reserved))


def cut_short(bench):
    bench.put(100)
    bench.arrived.append(bench.next()[:700])


PARTS = [
    example, whole_packets, damage, repaired_bytes, against_the_rules, too_long, gaps, other_types, past_the_last_number,
    other_reserved_bits, cut_short,
]


def capture():
    bench = Bench(Numbers(27))
    for part in PARTS:
        part(bench)
    return b"".join(bench.arrived)


def shows_all(text):
    """What the capture is there for."""
    words = [line.split() for line in text.splitlines()]
    numbers = {line[2] for line in words if line[1] == "refused"}
    assert text.startswith(EXAMPLE)
    assert numbers == {"2", "14", "15"} | {str(number) for number in OF_THE_FRAME}, numbers
    assert {line[2] for line in words[1:] if line[1] != "refused"} == {"idle", "data", "type2", "type3"}
    assert {"1", "3", "40", "65535"} <= {line[3] for line in words[1:] if line[1] != "refused"}
    assert words[-1][1:] == ["refused", "2"]


def main():
    codes.own_trial()
    listing.own_trial()
    data = capture()
    text = listing.listing(data)
    shows_all(text)
    files = [(FOLDER / "stdin", data), (FOLDER / "stdout", text.encode())]
    counts = f"{len(text.splitlines()) - 1} frames, {len(data)} bytes"
    if sys.argv[1:] == ["--check"]:
        for path, wanted in files:
            if path.read_bytes() != wanted:
                raise SystemExit(f"capture: {path.name} differs from what the second coder writes")
        print(f"capture: {counts}, the same as the files")
    else:
        for path, wanted in files:
            path.write_bytes(wanted)
        print(f"capture: {counts} written")


if __name__ == "__main__":
    main()
