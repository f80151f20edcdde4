"""The version, and what must be the same at all places."""

import sys

__version__ = "0.4"
VERSION = f"Python {sys.version_info[0]}.{sys.version_info[1]} with rx10 {__version__}"
