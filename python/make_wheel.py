#!/usr/bin/env python3
"""Makes the wheel rx10-VERSION-py3-none-linux_x86_64.whl, with the coordinator inside, by the standard library alone.

    make_wheel.py FOLDER [--coordinator PROGRAM] [--unproved]

PROGRAM is the one that the repository has proved and built, where left out. With --unproved it is the one that `./rx10 coordinator` has compiled
without proofs: the version is then VERSION+unproved, and `python -m rx10` says that the coordinator is not proved. The last line is the path of
the wheel. The same sources and the same program give the same bytes.
"""

import argparse
import base64
import hashlib
import os
import pathlib
import sys
import zipfile

HERE = pathlib.Path(__file__).resolve().parent
BUILT = HERE.parent / "crates" / "rx10_coordinator" / "out" / "rx10_coordinator"
TAG = "py3-none-linux_x86_64"
LICENCES = ["LICENSE-APACHE", "LICENSE-MIT"]
PLAIN, RUN = 0o100644, 0o100755

sys.dont_write_bytecode = True
sys.path.insert(0, str(HERE))

from rx10.program import MARK, NAME, is_unproved, kept_unproved  # noqa: E402
from rx10.version import __version__                             # noqa: E402

METADATA = """Metadata-Version: 2.1
Name: rx10
Version: {version}
Summary: Finish over places that may die: parallel tasks of which you learn exactly which places lost work
License: MIT OR Apache-2.0
{licences}Requires-Python: >=3.9
Provides-Extra: cloudpickle
Requires-Dist: cloudpickle; extra == "cloudpickle"
Provides-Extra: dask
Requires-Dist: distributed; extra == "dask"
Description-Content-Type: text/markdown

{page}"""


class Wheel:
    """A wheel that is being written, with its list of what it holds."""

    def __init__(self, path):
        self.file, self.record = zipfile.ZipFile(path, "w", zipfile.ZIP_DEFLATED), []

    def add(self, name, data, mode=PLAIN):
        """Adds a file."""
        entry = zipfile.ZipInfo(name, (1980, 1, 1, 0, 0, 0))
        entry.external_attr, entry.compress_type = mode << 16, zipfile.ZIP_DEFLATED
        self.file.writestr(entry, data)
        digest = base64.urlsafe_b64encode(hashlib.sha256(data).digest()).rstrip(b"=").decode()
        self.record.append(f"{name},sha256={digest},{len(data)}")

    def close(self, folder):
        """Adds the list, and ends the wheel."""
        name = f"{folder}/RECORD"
        self.record.append(f"{name},,")
        self.add(name, ("\n".join(self.record) + "\n").encode())
        self.file.close()


def make(folder, coordinator, version):
    """The path of the wheel of this version with these bytes as the coordinator, in this folder: whole, or not there."""
    path = pathlib.Path(folder, f"rx10-{version}-{TAG}.whl")
    half = path.with_name(f".{path.name}.{os.getpid()}")
    try:
        fill(half, coordinator, version)
        os.replace(half, path)
    finally:
        half.unlink(missing_ok=True)
    return path


def fill(path, coordinator, version):
    """Writes all of the wheel."""
    wheel, info = Wheel(path), f"rx10-{version}.dist-info"
    package = HERE / "rx10"
    for source in sorted(it for it in package.rglob("*") if it.suffix in (".py", ".typed")):
        wheel.add(f"rx10/{source.relative_to(package).as_posix()}", source.read_bytes())
    wheel.add(f"rx10/{NAME}", coordinator, RUN)
    licences = "".join(f"License-File: {name}\n" for name in LICENCES)
    page = (HERE / "README.md").read_text(encoding="utf-8")
    wheel.add(f"{info}/METADATA", METADATA.format(version=version, licences=licences, page=page).encode())
    wheel.add(f"{info}/WHEEL", f"Wheel-Version: 1.0\nGenerator: rx10\nRoot-Is-Purelib: false\nTag: {TAG}\n".encode())
    for name in LICENCES:
        wheel.add(f"{info}/{name}", (HERE.parent / name).read_bytes())
    wheel.close(info)


def fault(folder, coordinator, unproved):
    """Why no wheel can be made of this coordinator; None where one can."""
    if not coordinator.is_file():
        how = "`./rx10 coordinator` compiles one" if unproved else "`rt run` in crates/rx10_coordinator proves and builds one"
        return f"there is no {coordinator}" + (f"; {how}" if coordinator in (BUILT, pathlib.Path(kept_unproved())) else "")
    if not pathlib.Path(folder).is_dir():
        return f"there is no {folder}"
    if is_unproved(str(coordinator)) and not unproved:
        return f"{coordinator} was compiled without proofs; with --unproved a wheel is made of it, and its name says so"
    return None


def main():
    parser = argparse.ArgumentParser(description=__doc__.split("\n", maxsplit=1)[0])
    parser.add_argument("folder")
    parser.add_argument("--coordinator", metavar="PROGRAM", help="the program to put in, in place of the one that the repository has")
    parser.add_argument("--unproved", action="store_true", help="take one that was compiled without proofs, and say so in the wheel's name")
    given = parser.parse_args()
    coordinator = pathlib.Path(given.coordinator or (kept_unproved() if given.unproved else BUILT))
    why = fault(given.folder, coordinator, given.unproved)
    if why:
        sys.stderr.write(f"make_wheel: {why}\n")
        return 1
    data, version = coordinator.read_bytes(), __version__
    if given.unproved:
        data, version = data if data.endswith(MARK) else data + MARK, f"{version}+unproved"
    print(make(given.folder, data, version))
    return 0


if __name__ == "__main__":
    sys.exit(main())
