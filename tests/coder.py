"""The second coder's modules, which stand in second/ and import each other by their plain names."""

import sys
from pathlib import Path

sys.path.insert(0, str(Path(__file__).resolve().parent / "second"))

import codes  # noqa: E402
import frames  # noqa: E402
import nearest  # noqa: E402
import packing  # noqa: E402
import receiver  # noqa: E402
import repairing  # noqa: E402
import sender  # noqa: E402

MODULES = [codes, nearest, frames, repairing, packing, sender, receiver]
