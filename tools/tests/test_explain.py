"""What is added to a refusal."""

import unittest

import explain
import script_text
import trace_hints
from model.lines import first_bad_line
from places import EXAMPLES

# A script, what the program says of it, and the first line and the mark of what is added.
FAULTS = [
    ("print 7", "syntax 7", "x:1:8: the script ends here, though more must come: `;` must come", "       ^"),
    ("print 1;\nprint 7\n# end\n", "syntax 23", "x:3:6: the script ends here, though more must come: `;` must come", "     ^"),
    ("print 7; pri", "syntax 9", "x:1:10: `pri` can't stand here: a statement must come", "         ^^^"),
    ("print 9223372036854775808;", "syntax 6", "x:1:7: `9223372036854775808` can't stand here: a number, a name, `here` or `(` must come",
     "      ^^^^^^^^^^^^^^^^^^^"),
    ("new r = 0;", "syntax 8", "x:1:9: `0` can't stand here: a number from 1 to 65,536 must come", "        ^"),
    ("if 1 { }\nprint 2;", "syntax 9", "x:2:1: `print` can't stand here: `else` must come", "^^^^^"),
    ("async { } }", "syntax 10", "x:1:11: `}` can't stand here: a statement must come", "          ^"),
    ("print \N{SNOWMAN};", "syntax 6", "x:1:7: `\N{SNOWMAN}` can't stand here: a number, a name, `here` or `(` must come", "      ^"),
    ("at 1 async async { }", "syntax 11", "x:1:12: `async` can't stand here: `{` must come", " " * 11 + "^^^^^"),
    ("at 1 print 7;", "syntax 5", "x:1:6: `print` can't stand here: `{` or `async` must come", "     ^^^^^"),
    ("try { } catch deed { }", "syntax 14", "x:1:15: `deed` can't stand here: `{` or `dead` must come", " " * 14 + "^^^^"),
    ("print (7);", "syntax 8", "x:1:9: `)` can't stand here: `+`, `-`, `*`, `<` or `==` must come", "        ^"),
    ("print x;", "bad 1 0", "x:1:7: `x` is not known here", "      ^"),
    ("set x = 1;\n\tforget x;", "bad 2 1", "x:2:9: `x` is a number, and only a reference has words to read, write or forget", "\t       ^"),
    ("if 1 { set x = 1; } else { print x; }", "bad 1 2", "x:1:34: `x` is not known here", " " * 33 + "^"),
    ("new r = 1; set r = 2;", "bad 2 1", "x:1:16: `r` is a reference since its first assignment, and can't become a number",
     " " * 15 + "^"),
    ("repeat 9 { repeat 11109 { } } print 1;", "bad 5 0",
     "x:1:1: the work of the script is 100,001, and this statement has 100,000 of it", "^^^^^^"),
    ("print 1; finish { async { repeat 1000000 { print 1; } } }", "bad 5 0",
     "x:1:27: the work of the script is 2,000,004, and this statement has 2,000,001 of it", " " * 26 + "^^^^^^"),
    ("".join("set a%d = 1;" % i for i in range(33)), "bad 4 32", "x:1:379: `a32` is one name too many", None),
    ("finish { " * 33 + "print 1;" + " }" * 33, "bad 3 33", "x:1:298: this statement stands in 33 blocks", None),
    ("print " + "(" * 33 + "1" + " + 1)" * 33 + ";", "bad 3 0", "x:1:39: this expression has 33 parentheses in one another", None),
]
# Words of a command, what the program says of them, and what is added.
WORDS = [
    ("", 0, "a command is missing"),
    ("stepp", 0, "is `step` meant?"),
    ("step --kill", 2, "a value is missing: `--kill` takes PLACE@MOMENT"),
    ("step --places 17", 2, "from 1 to 16"),
    ("step --places 2 --kill 0@3", 4, "place 0 never dies"),
    ("step --kill 3@1", 2, "`--places 4` has it"),
    ("step --kill 1@1 --kill 1@2", 4, "an earlier `--kill` has place 1"),
    ("step --places 2 --join 5 --kill 2@4", 6, "place 2 joins at moment 5"),
    ("step --kill 3@4 --join 4 --join 5", 2, "place 3 joins at moment 5"),
    ("step --kill 3@4 --join 4", 2, "there is no place 3: the places are 0 to 2"),
    ("step --places 16 --join 1", 4, "there are more than 16 places"),
    ("step --join 1000001", 2, "from 0 to 1000000"),
    ("gen --join 1", 1, "`gen` has no option `--join`"),
    ("step --seed 5 --pick 0", 3, "exclude each other"),
    ("step --seed 5 --seed 6", 3, "stands twice"),
    ("step --places=3", 1, "write `--places 3`"),
    ("step nothing.rx", 1, "there is no file `nothing.rx` here"),
    ("live --workers 9", 2, "the number of workers, from 1 to 8"),
    ("live --watch 0", 2, "the number of snapshots, from 1 to 1000"),
    ("gen --places 3", 3, "`gen` needs `--size LINES`"),
    ("verify --places 2", 1, "`verify` has no option `--places`; it has --why"),
    ("span none.rx none.trace", 1, "there is no file `none.rx` here"),
    ("step none.rx --places 3", 1, "there is no file `none.rx` here"),
    ("step /", 1, "`/` is a folder, and no file"),
    ("step --print", 1, "is `--prints` meant?"),
    ("nonsense", 0, "draw, laws, sweep, explain"),
]


# A script that is none, and what its writer may have meant.
HINTS = [
    ("prin 7;", "is `print` meant?"),
    ("x = 5;", "a value is given by `set x = ..;`"),
    ("while 1 { }", "`repeat N { .. }` runs a block N times"),
    ("else { }", "`else` follows the block of `if`"),
    ("// a comment\nprint 7;", "a comment begins with `#`"),
    ("print 1 + 2;", "an operation stands in parentheses: `(a + b)`"),
    ("print (1 + 2 + 3);", "`((a + b) + c)`"),
    ("print -5;", "`(0 - 5)`"),
    ("print (1 > 2);", "write `(b < a)` for a > b"),
    ("print r[0];", "`get x = r[..];`"),
    ("print 7\nprint 8;", "the `;` is missing at the end of line 1"),
    ("finish {\nasync {\nprint 1;\n}\n", "the `{` of line 1 is not closed"),
    ("try { } catch deed { }", "is `dead` meant?"),
    ("\ufeffprint 7;", "a byte order mark"),
    ("rx10 trace 2\n", "this is a trace"),
    ("Print 7;", "no capital letters"),
    ("if 1 { }\nprint 2;", "`else { }`"),
    ("if 1 { } esle { }", "is `else` meant?"),
    ("try { }\nprint 2;", "`catch dead { .. }`"),
    ("print (1 <= 2);", "`(a < (b + 1))`"),
    ("finish { } }", "no `{` is open here"),
    ("print\u00a07;", "a no-break space"),
    ("print \u201c7\u201d;", "there are no texts"),
    ("p\0r\0i\0n\0t\0", "UTF-16"),
]
# Lines of a trace that is none, the bad one, and why it is bad.
HEAD = "rx10 trace 2\nplaces 2 heap 256\nkills\njoins\nhistory\n"
LINES = [
    ("rx10 trace 2\r\nplaces 2 heap 256\r\n", 1, "carriage return"),
    ("rx10 trace 2\nplaces 2 heap 256\nkills\njoins\nhistory\n0 open t0 s1 in s0 0\n2 wait t0 s1\n", 7, "entry 1 is due here"),
    ("print 7;\n", 1, "a trace begins with `rx10 trace 2`"),
    (HEAD + "journal 0\njournal 1\ndone\nseen 0 scopes 1 live 1 travel 0\n", 9, "`grep -v '^seen'`"),
    (HEAD + "journal 0\njournal 1\ndone\nmore\n", 9, "nothing may follow `done`"),
    ("rx10 trace 2\nplaces 1 heap 0\n", 2, "heaps of 1 to 4096 words"),
    (HEAD.replace("kills", "kills 2@3"), 4, "line 3 has place 2 die, and the places are 0 to 1"),
    (HEAD + "0 hello\n", 6, "an entry is one of: open, at, spawn"),
    (HEAD + "0 arrive t1 2\n", 6, "the form of this line is `arrive tN PLACE [| PATH..]`; the places of this trace are 0 to 1"),
    (HEAD + "0 print t0 1 0,1\n", 6, "a path is numbers with points between them, as in 0.1"),
    (HEAD + "0 release t0 s1 lost 2\n", 6, "the places of this trace are 0 to 1"),
    (HEAD + "0 release t0 s1 lost 1 0\n", 6, "lost places stand in rising order"),
    (HEAD + "0 release t0 s1 masked 0\n", 6, "what is masked is at least 1"),
    (HEAD + "0 end t0 thrown code\n", 6, "a fault is dead:PLACE, code:VALUE, or one of overflow"),
    (HEAD + "journal 0\n0 t0 0 make 4 at 0 1\n", 7, "`N tN N make N at N N PATH`"),
    (HEAD + "journal 0\ndone\n", 7, "`journal 1` is due here, or event 0 of journal 0"),
    (HEAD + "journal 0\njournal 1\ndone", 8, "no newline stands behind it"),
]


class Faults(unittest.TestCase):
    def test_places_of_faults(self):
        for script, said, line, mark in FAULTS:
            with self.subTest(script=script):
                shown = explain.explained(3 if "syntax" in said else 4, said, "x", script.encode(), ["check"])
                self.assertEqual(shown.split("\n")[0], line)
                if mark is not None:
                    self.assertEqual(shown.split("\n")[3].split("| ", 1)[1], mark)

    def test_hints(self):
        for script, hint in HINTS:
            with self.subTest(script=script):
                try:
                    script_text.Reader(script.encode()).read()
                except script_text.Wrong as wrong:
                    self.assertIn(hint, explain.explained(3, "syntax %d" % wrong.token.at, "x", script.encode(), ["check"]))
                else:
                    self.fail("this is a script")

    def test_lines_of_traces(self):
        for trace, number, hint in LINES:
            with self.subTest(trace=trace):
                self.assertEqual(first_bad_line(trace), number)
                shown = explain.explained(10, "bad line %d" % number, "x", b"rx10 pair 0\n" + trace.encode(), ["verify"])
                self.assertIn(hint, shown)

    def test_each_bad_line_has_a_reason(self):
        lines = (EXAMPLES / "supervisor.trace").read_text().split("\n")
        for number, line in enumerate(lines):
            words = line.split(" ")
            for k in range(len(words)):
                for changed in (words[:k], words[:k] + words[k + 1:], [*words[:k], "x", *words[k + 1:]], [*words[:k], "99", *words[k:]]):
                    text = "\n".join([*lines[:number], " ".join(changed), *lines[number + 1:]])
                    bad = first_bad_line(text)
                    if bad is not None:
                        self.assertTrue(trace_hints.notes(text.encode(), bad))

    def test_what_is_too_long(self):
        self.assertEqual(explain.explained(5, "too long", "x", b"#" * 70000, ["step"]), "x has 70,000 bytes, and a script may have 65,536")
        self.assertIn("more than the 16,777,216 bytes", explain.explained(5, "too long", "x", b" " * 16777217, ["verify"]))

    def test_bad_words(self):
        for words, k, part in WORDS:
            with self.subTest(words=words):
                self.assertIn(part, explain.explained(2, "usage %d" % k, None, None, words.split()))

    def test_the_mark_stands_under_the_word(self):
        shown = explain.explained(2, "usage 2", None, None, ["step", "--heap", "0"]).split("\n")
        self.assertEqual(shown[1:3], ["  rx10 step --heap 0", " " * 19 + "^"])

    def test_a_long_line_is_cut(self):
        shown = explain.explained(3, "syntax 900", "x", b"print 1; " * 100 + b"prin", ["check"]).split("\n")
        self.assertLess(max(map(len, shown)), 140)
        self.assertEqual(shown[2][shown[3].index("^"):], "prin")

    def test_pairs_and_lines_of_traces(self):
        pair = b"rx10 pair 8\nprint 7;rx10 trace 2\nplace 2\n"
        shown = explain.explained(10, "bad line 2", "x", pair, ["verify"])
        self.assertTrue(shown.startswith("x (its trace):2:1: line 2 of the trace can't stand here"), shown)
        shown = explain.explained(10, "bad line 2", "t", pair, ["span"], True)
        self.assertTrue(shown.startswith("t:2:1: line 2 of the trace can't stand here"), shown)
        shown = explain.explained(3, "syntax 7", "x", b"rx10 pair 7\nprint 7rx10 trace 2\n", ["verify"])
        self.assertTrue(shown.startswith("x (its script):1:8: the script ends here"), shown)
        for text, part in [(b"", "its first line must be"), (b"rx10 pair 07\nprint 7;", "its first line must be"),
                           (b"rx10 pair 9\nprint 7;", "tells of 9 bytes of script, and 8 follow"),
                           (b"rx10 pair 65537\n", "65,536 bytes at most"), (b"rx10 pair " + b"9" * 9999 + b"\n", "is no pair")]:
            self.assertIn(part, explain.explained(9, "bad pair", "x", text, ["verify"]))

    def test_deep_scripts_are_read(self):
        for deep in (b"(" * 60000, b"finish{" * 9000, b"print " + b"(" * 20000 + b"1" + b"+1)" * 10000):
            with self.assertRaises(script_text.Wrong):
                script_text.Reader(deep).read()

    def test_meanings(self):
        self.assertIn("Syntax", explain.meaning("3"))
        self.assertIn("BadTrace", explain.meaning("10"))
        self.assertIn("place P", explain.meaning("dead:4"))
        self.assertIsNone(explain.meaning("nonsense"))
