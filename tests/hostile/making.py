"""Random scripts that meet the rules, and the words under which they are run. All is drawn from one `random.Random`."""

NUMBERS = ["n", "i", "sum", "k"]
REFERENCES = ["r", "box"]
THEMES = {
    "tasks": {
        "set": 2, "print": 4, "throw": 1, "async": 3, "at async": 6, "finish": 4, "at": 3, "if": 1, "repeat": 2, "try": 3, "census": 1,
    },
    "heap": {
        "set": 2, "print": 1, "throw": 1, "async": 1, "at async": 2, "finish": 1, "at": 1, "if": 1, "repeat": 2, "try": 2,
        "new": 6, "get": 5, "put": 6, "forget": 4,
    },
    "faults": {
        "set": 2, "print": 3, "throw": 5, "async": 2, "at async": 4, "finish": 5, "at": 3, "try": 6, "new": 1, "get": 1, "repeat": 1,
    },
}
THEMES["mixed"] = {kind: 2 for theme in THEMES.values() for kind in theme}
COMPOUND = ("async", "at async", "finish", "at", "if", "repeat", "try")
OPERANDS = ["here", "0", "1", "2", "3", "7", "9223372036854775807", "4611686018427387904"]
# Scripts whose scopes stand in one another over several places, with faults of bodies and of tasks.
NESTED = [
    "try { finish { at 1 async { finish { at 2 async { finish { at 3 async { throw 1; } at 2 async { throw 2; } throw 3; } } throw 4; } } } }"
    " catch { print 9; } print 2;",
    "try { finish { at 1 async { throw 1; } async { throw 2; } at 2 async { finish { at 3 async { print 7; } throw 4; } } throw 3; } }"
    " catch dead { print here; }",
    "finish { at 1 async { at 2 { async { at 3 { print here; } throw 5; } throw 6; } } at 3 async { finish { async { throw 8; } print 1; } } }",
    "census n; try { finish { repeat 3 { set n = (n - 1); try { at n async { census k; print k; at (k - 1) { print here; } } } catch { } } } }"
    " catch dead { census n; print n; } at (n - 1) async { throw n; }",
    "new r = 2; try { finish { repeat 2 { at 1 async { at 0 { get i = r[0]; put r[0] = (i + 1); } new box = 3; put box[2] = 4; forget box; } }"
    " throw 1; } } catch { get i = r[0]; print i; } forget r; try { get i = r[0]; } catch { new box = 1; put box[0] = 6; }",
    "try { finish { at 1 async { finish { repeat 3 { at 2 async { print 1; throw 5; } } throw 6; } } } } catch { print 9; }",
    "new r = 2; new box = 3; forget r; new r = 2; put box[1] = 4; forget box; new box = 4; try { new box = 3; } catch { print 1; }",
    "set n = ((0 - 9223372036854775807) - 1); print n; try { print (n - 1); } catch { print (n < n); if (n == n) { throw here; } else { } }",
    "try { at 1 { new r = 2; async { put r[1] = 5; get i = r[1]; print i; throw i; } at 2 { put r[0] = 1; } } } catch { print 3; } throw 4;",
]
DEEPEST = 9
SPENT = 40      # the statements of a text, about


class Maker:
    """Makes one script. `known` are the names that are known at a place of it, with True for references."""

    def __init__(self, rng, places):
        self.rng = rng
        self.places = places
        self.left = rng.choice([3, 8, 15, SPENT])
        self.weights = THEMES[rng.choice(sorted(THEMES))]

    def script(self):
        return self.statements({}, 0)

    def statements(self, known, depth):
        known, made = dict(known), []
        for _ in range(self.rng.choice([0, 1, 1, 2, 2, 3, 4]) + (2 if depth == 0 else 0)):
            if self.left > 0:
                self.left -= 1
                made.append(self.statement(known, depth))
        return " ".join(made)

    def block(self, known, depth):
        return "{ %s }" % self.statements(known, depth + 1)

    def expression(self, known, depth=0):
        numbers = [name for name, is_reference in known.items() if not is_reference]
        draw = self.rng.random()
        if draw < 0.3 and depth < 3:
            sign = self.rng.choice(["+", "-", "*", "<", "=="])
            return "(%s %s %s)" % (self.expression(known, depth + 1), sign, self.expression(known, depth + 1))
        if draw < 0.6 and numbers:
            return self.rng.choice(numbers)
        return self.rng.choice(OPERANDS[:self.rng.choice([6, 6, 6, 8])])

    def place(self, known):
        return str(self.rng.randrange(self.places)) if self.rng.random() < 0.8 else self.expression(known)

    def statement(self, known, depth):
        kinds = [kind for kind in self.weights if depth < DEEPEST or kind not in COMPOUND]
        kind = self.rng.choices(kinds, [self.weights[it] for it in kinds])[0]
        references = [name for name, is_reference in known.items() if is_reference]
        if kind in ("get", "put", "forget") and not references:
            kind = "new"
        name = self.rng.choice(REFERENCES if kind == "new" else NUMBERS)
        block = lambda: self.block(known, depth)
        if kind in ("set", "get", "new", "census"):
            text = {
                "set": lambda: "set %s = %s;" % (name, self.expression(known)),
                "get": lambda: "get %s = %s[%s];" % (name, self.rng.choice(references), self.expression(known)),
                "new": lambda: "new %s = %d;" % (name, self.rng.choice([1, 1, 2, 3, 4, 8, 300])),
                "census": lambda: "census %s;" % name,
            }[kind]()
            known[name] = kind == "new"
            return text
        return {
            "put": lambda: "put %s[%s] = %s;" % (self.rng.choice(references), self.expression(known), self.expression(known)),
            "forget": lambda: "forget %s;" % self.rng.choice(references),
            "print": lambda: "print %s;" % self.expression(known),
            "throw": lambda: "throw %s;" % self.expression(known),
            "async": lambda: "async %s" % block(),
            "at async": lambda: "at %s async %s" % (self.place(known), block()),
            "finish": lambda: "finish %s" % block(),
            "at": lambda: "at %s %s" % (self.place(known), block()),
            "if": lambda: "if %s %s else %s" % (self.expression(known), block(), block()),
            "repeat": lambda: "repeat %d %s" % (self.rng.choice([0, 1, 2, 2, 3]), block()),
            "try": lambda: "try %s catch %s%s" % (block(), self.rng.choice(["", "dead "]), block()),
        }[kind]()


def script(rng, places):
    """A script for so many places."""
    return rng.choice(NESTED) if rng.random() < 0.4 else Maker(rng, places).script()


def words_for(rng, places, length):
    """The words of a run over so many places, of which a run of this script makes about `length` entries."""
    words = ["--places", str(places), "--heap", str(rng.choice([1, 4, 8, 16, 256]))]
    joins = rng.choice([0, 0, 0, 1, 2])
    moments = sorted(rng.randrange(length + 2) for _ in range(joins))
    for moment in moments:
        words += ["--join", str(moment)]
    for place in rng.sample(range(1, places + joins), min(places + joins - 1, rng.choice([0, 1, 1, 2, 3]))):
        least = moments[place - places] if place >= places else 0
        words += ["--kill", "%d@%d" % (place, least + rng.randrange(length + 2))]
    return words
