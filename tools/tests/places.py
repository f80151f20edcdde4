"""Where the tests find the repository, the program and the examples."""

import os
import pathlib

TOP = pathlib.Path(__file__).resolve().parent.parent.parent
PROGRAM = os.environ.get("RX10_PROGRAM", "")
EXAMPLES = TOP / "examples"
PICTURES = TOP / "docs" / "pictures"
COORDINATOR = os.environ.get("RX10_COORDINATOR", str(TOP / "crates" / "rx10_coordinator" / "out" / "rx10_coordinator"))
