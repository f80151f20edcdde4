"""The wheel: made by the standard library alone, installed into an empty environment without a network, and used there."""

import base64
import hashlib
import os
import pathlib
import re
import subprocess
import sys
import tempfile
import unittest
import zipfile

import alone
from rx10 import program
from rx10.version import __version__

OFFLINE = {"PYTHONPATH": "", "RX10_COORDINATOR": "", "PIP_NO_INDEX": "1", "PIP_DISABLE_PIP_VERSION_CHECK": "1", "PIP_CONFIG_FILE": os.devnull}


def run_maker(*words):
    return subprocess.run([sys.executable, alone.PYTHON / "make_wheel.py", *map(str, words)], capture_output=True, text=True, check=False)


class Wheel(unittest.TestCase):
    def make(self, folder):
        found = program.find()
        done = run_maker(folder, "--coordinator", found.path, *(["--unproved"] if found.is_unproved() else []))
        self.assertEqual((done.returncode, done.stderr), (0, ""))
        return pathlib.Path(done.stdout.splitlines()[-1])

    def test_the_same_bytes(self):
        with tempfile.TemporaryDirectory() as one, tempfile.TemporaryDirectory() as other:
            first, second = self.make(one), self.make(other)
            self.assertEqual(first.read_bytes(), second.read_bytes())
            with zipfile.ZipFile(first) as wheel:
                names = wheel.namelist()
                self.assertIn(f"rx10/{program.NAME}", names)
                listed = wheel.read(names[-1]).decode().splitlines()
        self.assertEqual([line.split(",")[0] for line in listed], names)

    def test_what_is_inside(self):
        """Each file of the package and no other, the coordinator as a program, and a list with the sums of all."""
        with tempfile.TemporaryDirectory() as folder:
            path = self.make(folder)
            version = f"{__version__}+unproved" if program.find().is_unproved() else __version__
            self.assertEqual(path.name, f"rx10-{version}-py3-none-linux_x86_64.whl")
            self.assertEqual([it.name for it in pathlib.Path(folder).iterdir()], [path.name])
            with zipfile.ZipFile(path) as wheel:
                held = {it.filename: (it.external_attr >> 16, wheel.read(it)) for it in wheel.infolist()}
                self.assertEqual({it.compress_type for it in wheel.infolist()}, {zipfile.ZIP_DEFLATED})
        info = f"rx10-{version}.dist-info"
        sources = {f"rx10/{it.relative_to(alone.PYTHON / 'rx10').as_posix()}": it for it in (alone.PYTHON / "rx10").rglob("*")
                   if it.suffix == ".py" or it.name == "py.typed"}
        licences = {f"{info}/{name}": alone.PYTHON.parent / name for name in ("LICENSE-APACHE", "LICENSE-MIT")}
        copies = {**sources, **licences, f"rx10/{program.NAME}": pathlib.Path(program.find().path)}
        self.assertEqual(sorted(held), sorted([*copies, f"{info}/METADATA", f"{info}/WHEEL", f"{info}/RECORD"]))
        for name, (mode, data) in held.items():
            self.assertEqual(mode, 0o100755 if name == f"rx10/{program.NAME}" else 0o100644, name)
            if name in copies:
                self.assertEqual(data, copies[name].read_bytes(), name)
        sums = {name: f"sha256={base64.urlsafe_b64encode(hashlib.sha256(data).digest()).rstrip(b'=').decode()},{len(data)}" for name, (_, data) in held.items()}
        sums[f"{info}/RECORD"] = ","
        self.assertEqual(dict(line.split(",", 1) for line in held[f"{info}/RECORD"][1].decode().splitlines()), sums)
        self.check_words(version, held[f"{info}/METADATA"][1].decode(), held[f"{info}/WHEEL"][1].decode())

    def check_words(self, version, metadata, wheel):
        """What a tool that installs it is told."""
        head, _, page = metadata.partition("\n\n")
        self.assertEqual(page, (alone.PYTHON / "README.md").read_text(encoding="utf-8"))
        for line in ("Metadata-Version: 2.1", "Name: rx10", f"Version: {version}", "License: MIT OR Apache-2.0", "License-File: LICENSE-APACHE",
                     "License-File: LICENSE-MIT", "Requires-Python: >=3.9", "Provides-Extra: cloudpickle", "Provides-Extra: dask",
                     'Requires-Dist: cloudpickle; extra == "cloudpickle"', 'Requires-Dist: distributed; extra == "dask"',
                     "Description-Content-Type: text/markdown"):
            self.assertEqual(head.split("\n").count(line), 1, line)
        for line in ("Wheel-Version: 1.0", "Root-Is-Purelib: false", "Tag: py3-none-linux_x86_64"):
            self.assertIn(line, wheel.split("\n"))

    def test_pip_is_told_the_same(self):
        """pyproject.toml, which `pip install -e` reads, and the wheel's own words."""
        text = (alone.PYTHON / "pyproject.toml").read_text(encoding="utf-8")
        packages = sorted(".".join(it.parent.relative_to(alone.PYTHON).parts) for it in (alone.PYTHON / "rx10").rglob("__init__.py"))
        self.assertEqual(sorted(re.findall(r'"([\w.]+)"', re.search(r"(?m)^packages = \[(.*)\]$", text)[1])), packages)
        for line in ('requires-python = ">=3.9"', 'license = { text = "MIT OR Apache-2.0" }', 'cloudpickle = ["cloudpickle"]', 'dask = ["distributed"]'):
            self.assertIn(line, text.split("\n"))

    def test_nothing_to_put_in(self):
        with tempfile.TemporaryDirectory() as folder:
            done = run_maker(folder, "--coordinator", "/nowhere")
            self.assertEqual((done.returncode, done.stderr), (1, "make_wheel: there is no /nowhere\n"))
            self.assertEqual(os.listdir(folder), [])
        found = program.find()
        done = run_maker("/no/folder", "--coordinator", found.path, *(["--unproved"] if found.is_unproved() else []))
        self.assertEqual((done.returncode, done.stdout, done.stderr), (1, "", "make_wheel: there is no /no/folder\n"))

    def test_one_without_proofs_is_named_so(self):
        with tempfile.TemporaryDirectory() as folder:
            plain, marked = pathlib.Path(folder, "plain"), pathlib.Path(folder, "marked")
            plain.write_bytes(b"a program")
            marked.write_bytes(b"a program" + program.MARK)
            self.assertEqual([program.is_unproved(str(it)) for it in (plain, marked)], [False, True])
            done = run_maker(folder, "--coordinator", marked)
            self.assertEqual((done.returncode, done.stdout), (1, ""))
            self.assertIn("was compiled without proofs; with --unproved", done.stderr)
            self.assertEqual(sorted(it.name for it in pathlib.Path(folder).iterdir()), ["marked", "plain"])
            for given in (plain, marked):
                done = run_maker(folder, "--coordinator", given, "--unproved")
                path = pathlib.Path(done.stdout.splitlines()[-1])
                self.assertRegex(path.name, r"\Arx10-[0-9.]+\+unproved-py3-none-linux_x86_64\.whl\Z")
                with zipfile.ZipFile(path) as wheel:
                    self.assertEqual(wheel.read(f"rx10/{program.NAME}"), marked.read_bytes())
                    (told,) = [it for it in wheel.namelist() if it.endswith("/METADATA")]
                    self.assertRegex(wheel.read(told).decode(), r"(?m)^Version: [0-9.]+\+unproved$")
            self.assertNotIn("unproved", run_maker(folder, "--coordinator", plain).stdout)

    @unittest.skipUnless(alone.runs(sys.executable, "import pip, venv"), "this Python has no pip, which installs the wheel, or no venv")
    def test_an_empty_environment(self):
        with tempfile.TemporaryDirectory() as folder:
            place = pathlib.Path(folder, "env")
            python = str(place / "bin" / "python")
            for words in (["venv", "--without-pip", str(place)], ["pip", "--python", python, "install", str(self.make(folder))]):
                alone.run([sys.executable, "-m", *words], env=OFFLINE).check(self)
            found = alone.run([python, "-m", "rx10"], env=OFFLINE)
            found.check(self)
            self.assertRegex(found.output, r"coordinator +\S*/env/lib/\S+/rx10/rx10-coordinator \(beside the package(, not proved)?\): coordinator 1 places 1")
            self.assertEqual("not proved" in found.output, program.find().is_unproved())
            sweep = alone.run([python, str(alone.PYTHON / "examples" / "sweep.py"), "--kill"], env=OFFLINE)
            sweep.check(self)
            self.assertIn("100 points done, the sum is 328350", sweep.output)
            self.assertRegex(sweep.output, r"lost places \(2")
