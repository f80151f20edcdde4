"""Where the coordinator is."""

from __future__ import annotations

import os
from typing import Iterator, NamedTuple, Tuple

NAME = "rx10-coordinator"
HERE = os.path.dirname(os.path.abspath(__file__))
TOP = os.path.dirname(os.path.dirname(HERE))                    # of the repository, where the package stands in it
MARK = b"\nrx10: compiled without proofs\n"                     # at the end of a program that tools/build.py has compiled so


class Program(NamedTuple):
    """A coordinator that was found."""

    path: str
    where: str                  # how it was found

    def is_unproved(self) -> bool:
        """Whether this coordinator was compiled without its proofs."""
        return is_unproved(self.path)


def is_unproved(path: str) -> bool:
    """Whether this program says of itself that it was compiled without its proofs."""
    with open(path, "rb") as file:
        file.seek(max(0, os.path.getsize(path) - len(MARK)))
        return file.read() == MARK


def kept_unproved() -> str:
    """Where the launcher keeps the coordinator that it has compiled without proofs: of this clone, or of a user who can't write there."""
    folder = os.path.join(TOP, "out")
    if not os.access(TOP, os.W_OK) or (os.path.isdir(folder) and not os.access(folder, os.W_OK)):
        cache = os.environ.get("XDG_CACHE_HOME") or os.path.join(os.environ.get("HOME") or "/nonexistent", ".cache")
        folder = os.path.join(cache, "rx10", os.path.realpath(TOP).replace("/", "%"))
    return os.path.join(folder, NAME + "-unproved")


def is_as_new_as_sources(path: str) -> bool:
    """Whether no source in the repository is newer than this program."""
    try:
        made = os.stat(path).st_mtime_ns
        for crate in os.scandir(os.path.join(TOP, "crates")):
            for folder, _, names in os.walk(os.path.join(crate.path, "src")):
                if any(os.stat(os.path.join(folder, name)).st_mtime_ns > made for name in names):
                    return False
    except OSError:
        return False
    return True


def places_to_look() -> Iterator[Tuple[str, str]]:
    """Paths, the first choice first, each with how it is found. What RX10_COORDINATOR names is the only choice."""
    import shutil                                               # the driver alone looks, and places need not wait for it
    named = os.environ.get("RX10_COORDINATOR")
    if named:
        yield named, "RX10_COORDINATOR"
        return
    yield os.path.join(HERE, NAME), "beside the package"
    yield shutil.which(NAME) or "", "on the path"
    built = os.path.join(TOP, "crates", "rx10_coordinator", "out", "rx10_coordinator")
    unproved = kept_unproved()
    if os.path.isfile(unproved) and is_as_new_as_sources(unproved) and not (os.path.isfile(built) and is_as_new_as_sources(built)):
        yield unproved, "compiled in the repository"
        return
    yield built, "built in the repository"


def find() -> Program:
    """The coordinator. Raises FileNotFoundError that says where it was looked for."""
    looked = []
    for path, where in places_to_look():
        if os.path.isfile(path):
            if not os.access(path, os.X_OK):
                raise PermissionError(f"the coordinator {path} ({where}) is no program that may be run")
            return Program(os.path.abspath(path), where)
        looked.append(f"{where} ({path})" if path else where)
    raise FileNotFoundError(f"there is no coordinator: not {', not '.join(looked)}. A wheel of rx10 for Linux on x86-64 has it inside; "
                            "in a clone of the repository `python -m rx10` compiles one; or set RX10_COORDINATOR to the program")
