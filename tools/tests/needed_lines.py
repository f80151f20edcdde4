"""Which lines of specs/ a definition needs: its own, and those of all definitions that it uses, from file to file.

Comments, imports and empty lines are not counted. Of a value with proofs only the type is followed, and none of its lines are counted: the type
determines the value.
"""

import collections
import functools
import re

from places import TOP

CRATES = TOP / "crates"
WORD = re.compile(r"[^\s(){}\[\];,.λ∀→×⊎≡≢<>≤+*^\"|&:=∷'⟦⟧]+")
IMPORT = re.compile(r"^\s*(?:ghost )?(pub )?use Rattle\.([A-Za-z_0-9.]+?)\.\{([^}]*)\}", re.M)
# The modules of specs/ that have values with proofs alone.
VALUES = {"rx_words.specs.Inside.Rising"}
HEAD = re.compile(r"(?:(?:abbrev|pub|record|data|unfoldable) )+(%s)" % WORD.pattern)


def imports(text, public=False):
    """Each name that a file imports (or passes on): the module of the name, and its name there."""
    found = {}
    for told in IMPORT.finditer(text):
        for name in filter(None, map(str.strip, told[3].split(","))):
            there, _, here = name.partition(" as ")
            if told[1] or not public:
                found[(here or there).strip()] = (told[2], there.strip())
    return found


def blocks(text):
    """The pieces of a file that begin at the left margin, as lists of lines."""
    pieces = []
    for line in text.split("\n"):
        if line.strip() and not line.strip().startswith("--") and not line.startswith("module _"):
            if line[0] not in " \t":
                pieces.append([])
            if pieces:
                pieces[-1].append(line)
    return pieces


class Module:
    """The definitions of a file by name, each with its number of lines and its text; what it imports and passes on."""

    def __init__(self, text):
        self.imports, self.passed_on, self.defined = imports(text), imports(text, True), {}
        name = None
        for lines in blocks(IMPORT.sub("", text)):
            piece, head = "\n".join(lines), HEAD.match("\n".join(lines))
            if re.match(r"(abbrev |pub )*mutual", piece):
                whole = [len(lines), piece]
                for told in re.findall(r"\n\s+(?:(?:pub|record|data|abbrev) )*(%s)\s*:" % WORD.pattern, piece):
                    self.defined.setdefault(told, whole)
                name = None
                continue
            begun = WORD.match(piece)
            name = head[1] if head else begun[0] if begun and begun[0] in self.defined else name
            if name is None:
                continue
            whole = self.defined.setdefault(name, [0, ""])
            whole[0] += len(lines)
            whole[1] += piece + "\n"
            if head and "data " in head[0]:
                for told in re.findall(r"\n\s+(%s)\s*:" % WORD.pattern, piece):
                    self.defined.setdefault(told, whole)


@functools.lru_cache(maxsize=None)
def module(name):
    """The module of this name, or None where it is not a file of specs/ or proofs/ of ours."""
    crate, _, rest = name.partition(".")
    path = CRATES / crate / (rest.replace(".", "/") + ".antt")
    return Module(path.read_text()) if path.exists() else None


def type_of(name, text):
    """The words of a value's type: what stands in front of its equations."""
    found = re.search(r"\b%s\s*:\s*((?:.|\n)*?)(?=\n\S|\Z)" % re.escape(name), text)
    return found[1] if found else ""


def needed(roots):
    """The lines used of each file, by its path under crates/, that definitions need; a root is a path without its ending, and a name in it."""
    left = [(path.replace("/", "."), name) for path, name in roots]
    for path, name in left:
        if module(path) is None or name not in module(path).defined:
            raise KeyError("%s does not define %s" % (path, name))
    seen, lines = set(), collections.defaultdict(dict)
    while left:
        at = left.pop()
        here = module(at[0])
        if at in seen or here is None:
            continue
        seen.add(at)
        if at[1] not in here.defined:
            left += [here.passed_on[at[1]]] if at[1] in here.passed_on else []
            continue
        piece = here.defined[at[1]]
        is_skipped = ".proofs." in at[0] or at[0] in VALUES
        if not is_skipped:
            lines[at[0].replace(".", "/") + ".antt"][id(piece)] = piece[0]
        for word in set(WORD.findall(type_of(at[1], piece[1]) if is_skipped else piece[1])):
            if word in here.defined and word != at[1]:
                left.append((at[0], word))
            elif word in here.imports:
                left.append(here.imports[word])
    return {file: sum(it.values()) for file, it in sorted(lines.items())}
