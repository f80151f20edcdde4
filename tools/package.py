#!/usr/bin/env python3
"""Makes packages of the proved programs and all of the launcher that needs no repository: what `rx10 help package` tells.

usage: rx10 package [--unproved] DIR

The launcher gives the program by RX10_PROGRAM, and has looked whether it is proved. Each file is made in a folder of its own beside its place,
and takes its name when it is whole, after its sum and its text. No package carries a proof.
"""

import contextlib
import gzip
import hashlib
import os
import pathlib
import re
import shutil
import signal
import subprocess
import sys
import tarfile
import tempfile

TOP = pathlib.Path(__file__).resolve().parent.parent
sys.path.insert(0, str(TOP / "python"))

from rx10 import program as coordinators  # noqa: E402

FAILED = 125
PAGES = "tutorial language semantics commands trace theorem trust costs glossary".split()
COMMANDS = "step live check gen verify span draw laws sweep explain".split()
CONTROL = """Package: rx10
Version: %s
Architecture: amd64
Maintainer: the authors of rx10 <noreply@localhost>
Installed-Size: %d
Depends: libc6 (>= 2.%d), libgcc-s1, bash
Recommends: python3
Section: devel
Priority: optional
Description: fault-tolerant task runtime with a proof of what finish promises
 rx10 runs small parallel scripts over simulated places, kills any place but
 the first when you say, and shows what each finish then reports. The program
 was %s before it was packed; the package carries no proof.
"""
PROVED = """The program was proved from these sources before it was packed, on the machine that packed it. docs/trust.md of the sources says
what was proved and what is trusted. The launcher and the tools are not proved, and neither is the Python package.
"""
UNPROVED = """The program may have been compiled without its proofs. Nothing is claimed of it.
"""
COPYRIGHT = """rx10 is licensed under MIT or Apache-2.0, as you choose. The texts follow.

%s
%s"""


def help_of(*words):
    """What the launcher says of a command."""
    return subprocess.run([TOP / "rx10", "help", *words], stdin=subprocess.DEVNULL, stdout=subprocess.PIPE, check=True).stdout.decode()


def version():
    """The version, as `rx10 --version` tells it: `rx10 0.4 (trace 2)` is 0.4."""
    said = subprocess.run([TOP / "rx10", "--version"], stdin=subprocess.DEVNULL, stdout=subprocess.PIPE, check=True).stdout.decode()
    return said.split()[1]


def quoted(text):
    """Text as a manual page shows it as it stands."""
    escaped = text.replace("\\", "\\e").replace("-", "\\-").replace("'", "\\(aq").replace("`", "\\(ga")
    return ".nf\n%s\n.fi\n" % re.sub(r"^(?=\.)", r"\\&", escaped.rstrip("\n"), flags=re.M)


def manual(number):
    """The manual page rx10.1: the texts of help, each as it stands."""
    parts = ['.TH RX10 1 "" "rx10 %s" "User Commands"\n' % number, ".SH NAME\nrx10 \\- a fault\\-tolerant task runtime\n"]
    parts.append(".SH SYNOPSIS\n" + quoted(help_of()))
    parts += ['.SH "rx10 %s"\n%s' % (it, quoted(help_of(it))) for it in COMMANDS]
    parts.append(".SH FILES\n" + quoted("/usr/share/doc/rx10: README.md, docs/tutorial.md and further pages, and examples/"))
    return "".join(parts)


def libc_of(program):
    """The least version of glibc 2 that a program asks for, by the names of versions in it."""
    return max(map(int, re.findall(rb"GLIBC_2\.([0-9]+)", program.read_bytes())), default=0)


def told(number, unproved, program):
    """The text beside a package: which program is in it, of which sources, and what was proved."""
    def of_git(*words):
        found = subprocess.run(["git", "-C", TOP, *words], stdin=subprocess.DEVNULL, capture_output=True, text=True, check=False)
        return found.stdout.strip() if found.returncode == 0 else None
    commit, changed = of_git("rev-parse", "HEAD"), of_git("status", "--porcelain", "--untracked-files=no")
    return "rx10 %s\nsources: %s%s\nprogram: sha256 %s\n%s" % (
        number, commit or "not known", ", with changes" if changed else "", hashlib.sha256(program.read_bytes()).hexdigest(),
        UNPROVED if unproved else PROVED)


def fill_docs(docs):
    """Puts the pages, examples and licences into a folder."""
    shutil.copytree(TOP / "docs/pictures", docs / "docs/pictures")
    shutil.copytree(TOP / "examples", docs / "examples")
    for it in ("README.md", "CHANGELOG.md", *("docs/%s.md" % it for it in PAGES)):
        shutil.copy(TOP / it, docs / it)
    (docs / "copyright").write_text(COPYRIGHT % tuple((TOP / it).read_text() for it in ("LICENSE-MIT", "LICENSE-APACHE")))


def set_modes(room):
    for it in [room, *room.rglob("*")]:
        if not it.is_symlink():
            it.chmod(0o755 if it.is_dir() or os.access(it, os.X_OK) else 0o644)


def fill(room, number, unproved):
    """Puts all files of a package into a folder, as they lie below /usr."""
    home, docs = room / "lib/rx10", room / "share/doc/rx10"
    for it in (home, docs, room / "bin", room / "share/man/man1", room / "share/bash-completion/completions"):
        it.mkdir(parents=True)
    subprocess.run([TOP / "rx10", "install", *unproved, home], stderr=subprocess.DEVNULL, check=True)
    (room / "bin/rx10").symlink_to("../lib/rx10/rx10")
    shutil.copy(TOP / "tools/completion/rx10.bash", room / "share/bash-completion/completions/rx10")
    with gzip.GzipFile(room / "share/man/man1/rx10.1.gz", "wb", mtime=0) as page:
        page.write(manual(number).encode())
    fill_docs(docs)
    set_modes(room)


def make_deb(room, files, number, unproved):
    """A Debian package of these files; None where dpkg-deb is not there."""
    if not shutil.which("dpkg-deb"):
        say("left out: the Debian package: it needs dpkg-deb, of the Debian package dpkg")
        return None
    tree, made = room / "deb", room / ("rx10_%s_amd64.deb" % number)
    shutil.copytree(files, tree / "usr", symlinks=True)
    (tree / "DEBIAN").mkdir()
    size = sum(it.lstat().st_size for it in tree.rglob("*") if not it.is_dir())
    how = "compiled without proofs" if unproved else "proved"
    (tree / "DEBIAN/control").write_text(CONTROL % (number, size // 1024 + 1, libc_of(files / "lib/rx10/rx10-files/program"), how))
    set_modes(tree)
    run(["dpkg-deb", "--root-owner-group", "--build", "deb", made], "dpkg-deb", cwd=room)
    return made


def make_archive(room, files, number):
    """An archive of these files: one folder, which runs where it is unpacked."""
    made = room / ("rx10-%s-linux-x86_64.tar.gz" % number)

    def plain(entry):
        entry.uid = entry.gid = entry.mtime = 0
        entry.uname = entry.gname = "root"
        return entry

    with open(made, "wb") as out, gzip.GzipFile("", "wb", fileobj=out, mtime=0) as packed, tarfile.open(fileobj=packed, mode="w") as archive:
        archive.add(files, "rx10-%s" % number, recursive=False, filter=plain)
        for it in sorted(files.rglob("*")):
            archive.add(it, "rx10-%s/%s" % (number, it.relative_to(files)), recursive=False, filter=plain)
    return made


def coordinator_of(unproved):
    """The coordinator for a wheel: a proved one of these sources, or with --unproved the one that there is; None where there is none."""
    if unproved:
        with contextlib.suppress(OSError):
            return pathlib.Path(coordinators.find().path)
        return None
    built = TOP / "crates" / "rx10_coordinator" / "out" / "rx10_coordinator"
    return built if coordinators.is_as_new_as_sources(str(built)) else None


def make_wheel(room, unproved):
    """A wheel, and its coordinator; None where there is no coordinator for it."""
    coordinator = coordinator_of(unproved)
    if coordinator is None:
        say("left out: the wheel: there is no %scoordinator of these sources" % ("" if unproved else "proved "))
        return None, None
    run([sys.executable, TOP / "python" / "make_wheel.py", room, "--coordinator", coordinator, *unproved], "make_wheel.py")
    return next(room.glob("*.whl")), coordinator


def run(words, name, **how):
    """Runs a command that makes a file, or says why it did not."""
    done = subprocess.run(words, stdin=subprocess.DEVNULL, stdout=subprocess.PIPE, stderr=subprocess.STDOUT, text=True, check=False, **how)
    if done.returncode:
        raise OSError("%s could not make it:\n%s" % (name, done.stdout.rstrip()))


def publish(made, to, about):
    """Gives a file that is whole its name, after its sum and its text."""
    digest = hashlib.sha256(made.read_bytes()).hexdigest()
    for suffix, text in ((".sha256", "%s  %s\n" % (digest, made.name)), (".txt", about)):
        beside = made.with_name(made.name + suffix)
        beside.write_text(text)
        os.replace(beside, to / beside.name)
    os.replace(made, to / made.name)
    say("made %s" % (to / made.name))


def say(text):
    print("rx10: %s" % text, file=sys.stderr, flush=True)


def make_all(to, unproved):
    """Makes all packages in a folder beside their places, and then names them."""
    number = version() + ("+unproved" if unproved else "")
    with tempfile.TemporaryDirectory(prefix=".rx10-package-", dir=to) as folder:
        room = pathlib.Path(folder)
        fill(room / "usr", number, unproved)
        program = room / "usr/lib/rx10/rx10-files/program"
        made = [(make_deb(room, room / "usr", number, unproved), program), (make_archive(room, room / "usr", number), program), make_wheel(room, unproved)]
        for path, packed in made:
            if path is not None:
                publish(path, to, told(number, unproved, packed))


def main(words):
    if words[:1] in (["-h"], ["--help"]):
        print(help_of("package"), file=sys.stderr)
        return 0
    unproved, rest = [it for it in words if it == "--unproved"], [it for it in words if it != "--unproved"]
    if len(rest) != 1 or rest[0].startswith("-"):
        print("usage: rx10 package [--unproved] DIR", file=sys.stderr)
        return 2
    to = pathlib.Path(rest[0])
    if not to.is_dir():
        say("there is no folder %s" % to)
        return FAILED
    if not unproved and coordinators.is_unproved(os.environ["RX10_PROGRAM"]):
        say("%s was compiled without proofs; with --unproved it is packed" % os.environ["RX10_PROGRAM"])
        return FAILED
    # (so that what was begun is removed)
    for it in (signal.SIGTERM, signal.SIGHUP):
        signal.signal(it, lambda number, _: sys.exit(128 + number))
    try:
        make_all(to.resolve(), unproved)
    except KeyboardInterrupt:
        return 130
    except (OSError, subprocess.CalledProcessError) as why:
        say("the package could not be made: %s" % why)
        return FAILED
    return 0


if __name__ == "__main__":
    sys.exit(main(sys.argv[1:]))
