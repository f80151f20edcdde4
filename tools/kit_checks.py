#!/usr/bin/env python3
"""What the kit's rt says of the sources without a proof: whether they are laid out as it would, and what a program does that `rt try` compiles.

usage: tools/kit_checks.py format [CRATE..]     whether `rt fmt` would change a file; of all crates, where none is named
       tools/kit_checks.py try CRATE            runs a program by `rt try`, and compares with the file stdout of its crate

The last line is `N passed, N failed`. `./rx10 test` calls it. Nothing here is proved.
"""

import pathlib
import shutil
import subprocess
import sys
import tempfile

TOP = pathlib.Path(__file__).resolve().parent.parent


def run(words, folder, **how):
    return subprocess.run(words, cwd=folder, capture_output=True, check=False, **how)


def files_of(folder):
    return {it.relative_to(folder): it.read_bytes() for it in sorted(folder.rglob("*")) if it.is_file()}


def check_format(crates):
    """How many crates are laid out as `rt fmt` lays them out, and how many are not. It works on a copy, since it writes what it changes."""
    passed = failed = 0
    with tempfile.TemporaryDirectory(prefix="rx10-format-") as room:
        top = pathlib.Path(room)
        shutil.copy(TOP / "crates.txt", top)
        for name in crates:
            to = top / "crates" / name
            shutil.copytree(TOP / "crates" / name, to, ignore=shutil.ignore_patterns("out", "must-fail", ".*"))
            before = files_of(to)
            done = run(["rt", "fmt"], to, stdin=subprocess.DEVNULL)
            changed = sorted(it.as_posix() for it, text in files_of(to).items() if before.get(it) != text)
            if done.returncode or changed:
                failed += 1
                print("crates/%s: %s" % (name, "`rt fmt` would change %s" % ", ".join(changed) if changed else done.stderr.decode("utf-8", "replace")))
            else:
                passed += 1
    return passed, failed


def check_try(name):
    """Whether a program that `rt try` compiles writes what the file stdout of its crate has."""
    folder = TOP / "crates" / name
    given, wanted = folder / "stdin", folder / "stdout"
    done = run(["rt", "try"], folder, input=given.read_bytes() if given.exists() else b"")
    if (done.returncode, done.stdout) == (0, wanted.read_bytes()):
        return 1, 0
    print("crates/%s: `rt try` ended with status %d, and %s" % (name, done.returncode, "wrote what it should"
                                                              if done.stdout == wanted.read_bytes() else "wrote something else than stdout has"))
    print(done.stderr.decode("utf-8", "replace")[-2000:])
    return 0, 1


def main(words):
    crates = sorted(it.name for it in (TOP / "crates").iterdir() if (it / "src").is_dir())
    what, names = words[0] if words else "", words[1:]
    if what not in ("format", "try") or set(names) - set(crates) or (what == "try" and len(names) != 1):
        print(__doc__.split("\n\n")[1], file=sys.stderr)
        return 2
    if not shutil.which("rt"):
        print("the command rt of the Rattle kit is not on the path")
        print("0 passed, 1 failed")
        return 1
    passed, failed = check_format(names or crates) if what == "format" else check_try(names[0])
    print("%d passed, %d failed" % (passed, failed))
    return 1 if failed else 0


if __name__ == "__main__":
    sys.exit(main(sys.argv[1:]))
