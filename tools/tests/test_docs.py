"""The pages say what the tree has: names of files, crates and definitions are there, and numbers that can be counted are right.

A number in a sentence stands in CLAIMS: the page, a pattern of the sentence with a group for each number, and what counts each. Where a page
no longer has the sentence, its row goes. `python3 tools/tests/test_docs.py --mend` writes the numbers that are counted into the pages.
"""

import functools
import re
import sys
import unittest

import needed_lines
from places import TOP

CRATES = TOP / "crates"
PAGES = sorted([*TOP.glob("*.md"), *TOP.glob("docs/*.md"), *TOP.glob("tools/*.md"), *TOP.glob("bench/*.md"), *TOP.glob("tests/*/*.md")])
NAMES = {it.name for it in CRATES.iterdir() if it.is_dir()}
WORDS = "no one two three four five six seven eight nine ten eleven twelve thirteen fourteen fifteen sixteen seventeen eighteen".split()
ENDINGS = "rt|antt|py|md|rx|trace|c|css|js|svg|txt|bash|json|edit"
# Names of files that a page gives as what a reader may call his own, or that a command makes.
OWN = {"first.py", "broken.rx", "supervisor.trace", "supervisor.html", "FILE.trace", "NAME.html", "NAME.trace", "both.trace", "both.html", "bench/gate.txt"}

# Files of specs/ that no claim names: they say what a type keeps, serve private functions, or have the statements of lemmas.
UNNAMED = {"rx_parts/specs/Merges.antt", "rx_parts/specs/Passes.antt", "rx_parts/specs/Reading.antt", "rx_parts/specs/Telling.antt",
           "rx_book/specs/Ties.antt", "rx_chronicle/specs/Keeping.antt", "rx_book/specs/Latched.antt",
           "rx_machine/specs/Picking.antt", "rx_machine/specs/Slots.antt", "rx_rank/specs/Counts.antt", "rx_syntax/specs/Names.antt"}


# The reading lists of docs/trust.md: the heading of each, the definitions that it is for, and the lists above it to which it adds.
TOP_SPECS = "rx_program/specs/Top"
BULLETS = [("rx_rules/specs/Laws", "NoEarlyRelease"), ("rx_rules/specs/Laws", "LossExact"), ("rx_rules/specs/Order", "OrderKept"),
           ("rx_trace/specs/Text", "trace_text")]
SCRIPTS = BULLETS + [(TOP_SPECS, "WasScript")]
WHOLE_RUNS = SCRIPTS + [("rx_rules/specs/Run", "IsRun")]
COMMANDS = WHOLE_RUNS + [(TOP_SPECS, "IsOver"), (TOP_SPECS, "IsOutcome"), ("rx_words/specs/Words", "asked_any")]
COORDINATOR = [("rx10_coordinator/specs/Serving", "Served"), ("rx10_coordinator/specs/Log", "Logged")]
LISTS = {"The bullets": (BULLETS, []), "Scripts": (SCRIPTS, BULLETS), "Whole runs": (WHOLE_RUNS, SCRIPTS),
         "Every command": (COMMANDS, WHOLE_RUNS), "The coordinator": (COORDINATOR, [])}
LIST_ROW = r"(?m)^\| `([\w/]+\.antt)` \| (\d+) \|"


def page(name):
    return (TOP / name).read_text()


def list_text(title):
    """The text of a reading list, with its heading."""
    return re.search(r"^### %s\n.*?(?=^##)" % title, page("docs/trust.md"), re.M | re.S)[0]


@functools.lru_cache(maxsize=None)
def listed(title):
    """The lines that a reading list has to tell of each file: those that its definitions need, without those of the lists above."""
    roots, above = LISTS[title]
    told = needed_lines.needed(above)
    return {file: lines - told.get(file, 0) for file, lines in needed_lines.needed(roots).items() if lines != told.get(file, 0)}


def read_in_all(title):
    """The lines of a reading list and of the lists to which it adds."""
    return sum(needed_lines.needed(LISTS[title][0]).values())


def files(crate, part):
    """The files of a part of a crate, those that only list others among them."""
    return [it for it in (CRATES / crate / part).rglob("*") if it.suffix in (".rt", ".antt")]


@functools.lru_cache(maxsize=None)
def trusted():
    """The lines used of each file that the program's promise needs, by its path under crates/."""
    return needed_lines.needed(COMMANDS)


def claim_rows():
    """The rows of the page of claims: the crate, its contracts, and the last column, with the files to read."""
    rows = page("docs/claims.md").partition("\n## ")[0]
    return re.findall(r"^\| (rx\w+|tasks_by_hand) \| ([^|]*) \| .* \|([^|]*)\|$", rows, re.M)


@functools.lru_cache(maxsize=None)
def read_besides():
    """The files, by path under crates/, and lines that the rows of claims name, in their order."""
    found = [(crate, *it) for crate, _, files in claim_rows() for it in re.findall(r"`([\w/]+\.antt)` (\d+)", files)]
    return [(file if file.startswith("rx") else "%s/specs/%s" % (crate, file), int(lines)) for crate, file, lines in found]


def used(*ends):
    """The lines used of all trusted files whose paths end so."""
    found = [trusted()[it] for end in ends for it in trusted() if it.endswith(end)]
    return sum(found) if len(found) >= len(ends) else "no such file in the reading list"


def written():
    """The lines used that say what the text of a trace is; its limits, which a reader of traces holds besides, are told apart."""
    return sum(used(it) for it in trusted() if it.startswith("rx_trace/") and not it.endswith("/Limits.antt"))


def laws(crate):
    """The public functions of a crate of laws."""
    return sum(it.read_text().count("\npub fn ") for it in files(crate, "src"))


@functools.lru_cache(maxsize=None)
def bare_text(path):
    """A file without comments and imports."""
    text = path.read_text()
    if path.suffix == ".rt":
        return re.sub(r"(?m)^\s*(pub )?(ghost )?use [^;]*;", "", re.sub(r"//.*", "", text))
    return re.sub(r"(?m)^(pub )?use [^\n]*(\n[ \t}][^\n]*)*", "", re.sub(r"(?m)(^|\s)--.*", "", text))


@functools.lru_cache(maxsize=None)
def naming(word):
    """How many files name this word, in how many crates, in each part: with a small or a large letter, and with an `s` behind it or not."""
    pattern, counts = re.compile(r"\b[%s%s]%ss?\b" % (word[0].lower(), word[0].upper(), word[1:])), []
    for part in ("src", "specs", "proofs"):
        found = {}
        for crate in sorted(NAMES - {"tasks_by_hand"}):
            if not crate.startswith("tests_of_"):
                texts = [bare_text(it) for it in files(crate, part) if part != "src" or not re.search(r"tests?\.rt$|^worked|^texts", it.name)]
                found[crate] = sum(bool(pattern.search(it)) for it in texts)
        counts += [sum(found.values()), sum(it > 0 for it in found.values())]
    return counts


THEOREM, TRUST, CALLS, CHANGING = "docs/theorem.md", "docs/trust.md", "docs/claims.md", "CONTRIBUTING.md"
CLAIMS = [
    (THEOREM, r"`asked_any`.*?, (\d+) lines", lambda: used("rx_words/specs/Words.antt")),
    (THEOREM, r"`Lexical.antt` and `Tokens.antt` of `crates/rx_syntax/specs/`, (\d+) lines", lambda: used("Lexical.antt", "Tokens.antt", "Grammar.antt")),
    (THEOREM, r"`crates/rx_check/specs/Rules.antt`, (\d+) lines", lambda: used("rx_check/specs/Rules.antt")),
    (THEOREM, r"\(`crates/rx_trace/specs/`, (\d+) lines\)", written),
    (THEOREM, r"`crates/rx_gen/specs/Lines.antt`, (\d+) lines", lambda: used("rx_gen/specs/Lines.antt")),
    (THEOREM, r"\(`Numbers.antt`, (\d+) lines\)", lambda: used("rx_gen/specs/Numbers.antt")),
    (THEOREM, r"`crates/rx_monitor/specs/Text.antt`, (\d+) lines", lambda: used("rx_monitor/specs/Text.antt")),
    (THEOREM, r"`Cases.antt` (\d+) lines, `Pair.antt` of `crates/rx_answers/specs/` (\d+), `Limits.antt` of `crates/rx_trace/specs/` (\d+)",
     lambda: used("Cases.antt"), lambda: used("Pair.antt"), lambda: used("rx_trace/specs/Limits.antt")),
    (THEOREM, r"with `Rooted.antt` of `crates/rx_runs/specs/`, (\d+) lines", lambda: used("Verdicts.antt", "Makes.antt", "Rooted.antt")),
    (THEOREM, r"`Paths.antt` of `crates/rx_span/specs/`, (\d+) lines", lambda: used("rx_span/specs/Chains.antt", "rx_span/specs/Paths.antt")),
    (THEOREM, r"`Entries.antt` (\d+) lines, `Tree.antt` (\d+), `Fold.antt` (\d+)",
     *(lambda it=it: used("rx_rules/specs/%s.antt" % it) for it in ("Entries", "Tree", "Fold"))),
    (THEOREM, r"`Plays.antt` (\d+) lines, `Terms.antt` (\d+)", *(lambda it=it: used("rx_rules/specs/%s.antt" % it) for it in ("Plays", "Terms"))),
    (THEOREM, r"`Store.antt` (\d+) lines", lambda: used("rx_rules/specs/Store.antt")),
    (THEOREM, r"hits take (\d+) lines of `Laws.antt`", lambda: used("rx_rules/specs/Laws.antt")),
    (THEOREM, r"`Order.antt`, (\d+) lines", lambda: used("rx_rules/specs/Order.antt")),
    (THEOREM, r"(\d+) lines of the file say what turns", lambda: used("Picked.antt")),
    (THEOREM, r"`crates/rx_machine/specs/Seeds.antt`, (\d+) lines", lambda: used("Seeds.antt")),
    *((TRUST, r"(?m)^\| .* \| (?:the )?%s \| ([\d,]+) \|$" % re.sub("^The ", "", it).lower(), lambda it=it: read_in_all(it)) for it in LISTS),
    (CALLS, r"with\s+their\s+lines \(([\d,]+) in\s+all\)", lambda: sum(it[1] for it in read_besides())),
    (CALLS, r"(\d+) more worked histories are whole runs, and (\d+) laws tell", lambda: laws("rx_worked") - 13, lambda: laws("rx_worked") - 24),
    *((CHANGING, r"\| `%s` \| (\d+) in (\d+) crates \| (\d+) in (\d+) \| (\d+) in (\d+) \|" % word,
       *(lambda word=word, it=it: naming(word)[it] for it in range(6))) for word in ("forget", "set", "print", "arrive", "death", "dead")),
    (CHANGING, r"\| a crate: (\d+) \| (\d+) \| (\d+) \|", *(lambda it=it: len(files("rx_counts", it)) for it in ("src", "specs", "proofs"))),
    (CHANGING, r"with a file of specs for each\s+source\s+file \((\d+) lines", written),
]


def number(text):
    """A number in digits or in words."""
    return WORDS.index(text) if text in WORDS else int(text.replace(",", ""))


class Numbers(unittest.TestCase):
    def test_claims(self):
        for name, pattern, *counts in CLAIMS:
            with self.subTest(page=name, sentence=pattern):
                found = re.search(pattern, page(name), re.S if r"\s" in pattern else 0)
                self.assertIsNotNone(found, "the page no longer says this: mend or drop its row in CLAIMS")
                self.assertEqual([number(it) for it in found.groups()], [it() for it in counts])

    def test_reading_list(self):
        for title in LISTS:
            rows = re.findall(LIST_ROW, list_text(title))
            self.assertEqual((title, {file: int(lines) for file, lines in rows}), (title, listed(title)))
            self.assertEqual(len(rows), len(listed(title)), title)

    def test_other_definitions(self):
        for file, lines in read_besides():
            self.assertEqual((file, lines), (file, (CRATES / file).read_text().count("\n")))
        named = [it for it, _ in read_besides()]
        self.assertEqual(sorted(named), sorted(set(named) - set(trusted())), "each file is named once")
        for crate, _, besides in claim_rows():
            for file in re.findall(r"`(\w+\.antt)`", besides.partition("all of")[2].partition(";")[0]):
                self.assertIn("%s/specs/%s" % (crate, file), trusted())
        all_files = {str(it.relative_to(CRATES)) for it in CRATES.glob("*/specs/*.antt") if it.name not in ("Inside.antt", "Lib.antt")}
        self.assertEqual(all_files - set(named) - set(trusted()), UNNAMED)


class Names(unittest.TestCase):
    def test_links(self):
        for it in PAGES:
            for link in re.findall(r"\]\(([^)#]+)[^)]*\)", it.read_text()):
                if "://" not in link:
                    self.assertTrue((it.parent / link).exists(), "%s has a link to %s" % (it.name, link))
            for link, head in re.findall(r"\]\(([^)#:]*)#([^)]+)\)", it.read_text()):
                text = ((it.parent / link) if link else it).read_text()
                heads = [re.sub(r"[^\w -]", "", told.lower()).replace(" ", "-") for told in re.findall(r"^#+ (.*)$", text, re.M)]
                self.assertIn(head, heads, "%s has a link to a section of %s" % (it.name, link))

    def test_files(self):
        known = {it.name for it in TOP.rglob("*") if "out" not in it.parts}
        for it in PAGES:
            for name in set(re.findall(r"`((?:[\w.-]+/)*[\w-]+\.(?:%s))`" % ENDINGS, it.read_text())):
                if name in OWN:
                    continue
                is_there = (TOP / name).exists() or (CRATES / name).exists() or (it.parent / name).exists()
                is_there = is_there or (any(TOP.glob("crates/*/" + name)) or any(TOP.glob("crates/*/*/" + name)) if "/" in name else name in known)
                self.assertTrue(is_there, "%s names %s" % (it.name, name))

    def test_crates(self):
        for it in PAGES:
            for name in set(re.findall(r"\b(?:rx|tests_of)_[a-z_]+\b(?!\.|\()", it.read_text())):
                self.assertIn(name, NAMES, it.name)
        lines = [it.partition("#")[0].partition(":") for it in page("crates.txt").splitlines()]
        self.assertEqual({name for name, found, _ in lines if found}, NAMES)

    def test_functions_of_claims(self):
        self.assertTrue(claim_rows())
        for name, calls, _ in claim_rows():
            text = "".join(it.read_text() for it in files(name, "src"))
            for call in re.findall(r"`([\w:]+)`", calls):
                self.assertRegex(text, r"\b%s\b" % call.split("::")[-1], name)


def mend():
    """Writes what is counted into the pages, where a number is another one."""
    for name, pattern, *counts in CLAIMS:
        text = page(name)
        found = re.search(pattern, text, re.S if r"\s" in pattern else 0)
        for group, count in reversed([*enumerate(counts, 1)] if found else []):
            if number(found[group]) != count():
                print("%s: %s is %s: %s" % (name, found[group], count(), found[0]))
                text = text[:found.start(group)] + format(count(), ",") + text[found.end(group):]
        (TOP / name).write_text(text)
    for title in LISTS:
        old = list_text(title)
        new = re.sub(LIST_ROW, lambda row: "| `%s` | %d |" % (row[1], listed(title).get(row[1], 0)), old)
        if new != old:
            print("%s: the list of %r" % (TRUST, title))
            (TOP / TRUST).write_text(page(TRUST).replace(old, new))


if __name__ == "__main__" and sys.argv[1:] == ["--mend"]:
    mend()
