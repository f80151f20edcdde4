#!/usr/bin/env python3
"""The model of the coordinator's lines, which stands in tests/hostile. As a program it stands in for the coordinator."""

import pathlib
import sys

sys.path.append(str(pathlib.Path(__file__).resolve().parents[2] / "tests" / "hostile"))

from coordinator_model import LONGEST as LINE, MOST, Model, main      # noqa: E402

__all__ = ["LINE", "MOST", "Model"]

if __name__ == "__main__":
    main()
