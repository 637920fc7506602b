"""Writes the second coder's vectors, crates/trials/stdin, which the program `trials` runs the proved libraries on.

    python3 tests/write_vectors.py            writes the file
    python3 tests/write_vectors.py --check    compares it with the one that is there

The file is the number of records in four bytes, and then the records, in the form of records.py. Which kinds there are,
and what their bodies hold, stands at the head of the files that make them: code_vectors.py, header_vectors.py,
frame_vectors.py, repair_vectors.py, sender_session.py and receiver_session.py. Each group has a seed of its own, so
that a group can be added and the others stay as they are. Behind all others stand the planted records, which are wrong.
"""

import sys
from pathlib import Path

import apply_vectors
import code_vectors
import coder
import frame_vectors
import header_vectors
import planted_vectors
import receiver_vectors
import repair_vectors
import ring_vectors
import sender_vectors
import waiting_vectors

VECTORS = Path(__file__).resolve().parent.parent / "crates" / "trials" / "stdin"


def vectors():
    whole_frames = [frame_vectors, repair_vectors]
    sending = [sender_vectors, ring_vectors]
    receiving = [receiver_vectors, apply_vectors]
    files = [code_vectors, header_vectors, *whole_frames, *sending, *receiving, waiting_vectors, planted_vectors]
    records = [one for file in files for group in file.GROUPS for one in group()]
    return records, len(records).to_bytes(4, "big") + b"".join(records)


def main():
    for module in coder.MODULES:
        module.own_trial()
    records, file = vectors()
    if sys.argv[1:] == ["--check"]:
        if VECTORS.read_bytes() != file:
            raise SystemExit("vectors: the file differs from what the second coder writes")
        print(f"vectors: {len(records)} records, {len(file)} bytes, the same as the file")
    else:
        VECTORS.write_bytes(file)
        print(f"vectors: {len(records)} records, {len(file)} bytes written")


if __name__ == "__main__":
    main()
