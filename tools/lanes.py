"""The picture of a trace: a lane for each place, a bar for each activity, a bracket for each scope, and a mark for each entry.

Time runs from left to right, one column for each entry. A long history is broken into strips that stand below one another, as lines of
a text do, so that it can be read and printed without being moved sideways. A strip shows the activities that do something in it. Those
that only wait or travel there are thin where they are many, and past a number it only tells how many more there are.

Colours are classes here. picture.css has them for the page, and paper.py makes attributes of them for a file.
"""

from bisect import bisect_left
from html import escape

from activities import counted

COLUMN = 32
LEFT = 60
FIRST = 26
# Where the first column of the page begins, and how much of a strip is no column.
EDGE = LEFT + FIRST - COLUMN // 2
RIGHT = 12
MARGIN = EDGE + RIGHT + 2
BAR = 11
LEVEL = 9
NOTE = 11
GAP = 5
THIN = 4
# Up to so many idle activities of a place are drawn in full, and past that so many as thin bars.
IDLE_FULL = 6
IDLE_SHOWN = 24
# About the width of a letter.
LETTER = 5.8

DEAD = """<defs><pattern id="dead" width="7" height="7" patternUnits="userSpaceOnUse" patternTransform="rotate(45)">\
<rect class="dead-ground" width="7" height="7"/><path class="dead-line" d="M0 0V7"/></pattern></defs>"""


def hue(place):
    """The hue of a place's lane."""
    return (212 + 137.5 * place) % 360


class Row:
    """One row of a lane in a strip: where it stands, and how much room its brackets and its notes need. A thin one has neither."""

    def __init__(self, is_thin):
        self.is_thin = is_thin
        self.end, self.levels, self.notes, self.top = None, 0, 0, 0

    def bar_top(self):
        return self.top + self.levels * LEVEL + (3 if self.levels else 0)

    def bar_height(self):
        return THIN if self.is_thin else BAR

    def middle(self):
        return self.bar_top() + self.bar_height() / 2

    def height(self):
        return self.bar_top() - self.top + self.bar_height() + self.notes * NOTE + (1 if self.is_thin else GAP)


class Strip:
    """The entries from `begin` up to `end`: `svg` is what is drawn, without the element round it, and `marked` the height of each entry."""

    def __init__(self, story, begin, end, active, chain, column):
        self.story, self.begin, self.end, self.chain, self.column = story, begin, end, chain, column
        self.total = len(story.trace.entries)
        self.width = MARGIN + (end - begin) * column
        self.parts, self.row_of, self.lanes = [], {}, []
        self.place_rows(active)
        self.draw()
        self.svg = "".join(self.parts)
        self.marked = [round(self.height_of(it)) for it in story.trace.entries[begin:end]]

    def x(self, moment):
        """The middle of an entry's column."""
        return LEFT + FIRST + (moment - self.begin) * self.column

    def clip(self, moment):
        """The middle of an entry's column, or the edge of the strip where that lies beyond it."""
        return min(max(self.x(moment), LEFT), self.width - RIGHT)

    def fit(self, x, text):
        """Where a text begins that is to begin at x, but not to be cut at the right edge."""
        return min(x, self.width - LETTER * len(text) - 1)

    def span(self, it):
        """From which moment to which an activity is drawn in this strip, or None."""
        if it.begin >= self.end or it.over < self.begin:
            return None
        return max(it.begin, self.begin - 1), min(it.over, self.end)

    def height_of(self, entry):
        """How far down the mark of an entry is."""
        if entry.kind in ("death", "join"):
            return self.lanes[entry.place][1]
        row = self.row_of.get(entry.task)
        return row.middle() if row else self.lanes[0][1]

    def place_rows(self, active):
        """Gives each activity of the strip a row in the lane of its place, and each row its room."""
        by_place = {}
        for it in active:
            if self.span(it):
                by_place.setdefault(it.place, []).append(it)
        top = 30
        for place in range(self.story.places):
            there = sorted(by_place.get(place, []), key=lambda it: (it.begin, it.number))
            idle = [it for it in there if not self.is_busy(it)]
            rows = []
            if len(idle) > IDLE_FULL:
                for it in there:
                    if self.is_busy(it):
                        self.put_in_row(it, rows, False)
                for it in idle[:IDLE_SHOWN]:
                    self.put_in_row(it, rows, True)
            else:
                for it in there:
                    self.put_in_row(it, rows, False)
            height = 6 + (LEVEL + 4) * (place == 0)
            for row in rows:
                row.top = top + height
                height += row.height()
            height = max(height + 2, 32 if len(idle) > IDLE_SHOWN else 20)
            self.lanes.append((place, top, height, idle[IDLE_SHOWN:]))
            top += height + 4
        self.height = top + 4

    def put_in_row(self, it, rows, is_thin):
        """Puts an activity into the first row that is free then."""
        first, last = self.span(it)
        row = next((row for row in rows if row.is_thin == is_thin and row.end < first - 1), None)
        if row is None:
            row = Row(is_thin)
            rows.append(row)
        row.end = last
        self.row_of[it.number] = row
        if not is_thin:
            seen = [scope for scope in it.scopes if scope.begin < self.end and (scope.ended or self.total) >= self.begin]
            row.levels = max([row.levels] + [scope.level + 1 for scope in seen])
            row.notes = max(row.notes, self.notes_of(it))

    def is_busy(self, it):
        """Whether an activity does something in this strip, or something is done to it."""
        if self.begin <= it.begin < self.end or it.struck is not None and self.begin <= it.struck < self.end:
            return True
        return it.acts_between(self.begin, self.end)

    def marks_of(self, it):
        """The entries of an activity in this strip."""
        return it.marks[bisect_left(it.moments, self.begin):bisect_left(it.moments, self.end)]

    def notes_of(self, it):
        """How many lines of notes stand below an activity's bar: what it names as lost or thrown."""
        found = [mark for mark in self.marks_of(it) if mark.thrown or mark.lost or mark.masked]
        if not found:
            return 0
        return 2 if any(b.number - a.number < 4 for a, b in zip(found, found[1:])) else 1

    def put(self, text, *values):
        self.parts.append(text % values)

    def draw(self):
        shown = [self.story.activities[it] for it in self.row_of]
        full = [it for it in shown if not self.row_of[it.number].is_thin]
        self.draw_lanes()
        self.draw_columns()
        self.draw_chain()
        self.draw_root()
        for it in shown:
            self.draw_bars(it)
        for it in full:
            self.draw_start(it)
            self.draw_scopes(it)
        for it in full:
            self.draw_marks(it)

    def draw_lanes(self):
        right = self.width - RIGHT
        for place, top, height, hidden in self.lanes:
            lane = '<rect class="lane p%d" x="%d" y="%d" width="%d" height="%d"/>'
            self.put(lane, place, LEFT, top, right - LEFT, height)
            self.put('<text class="place" x="4" y="%d">place %d</text>', top + 15, place)
            if hidden:
                names = " ".join("t%d" % it.number for it in hidden)
                self.put('<text class="idle" x="4" y="%d">+ %d more<title>%s</title></text>', top + 27, len(hidden), names)
            death, join = self.story.deaths.get(place), self.story.joins.get(place)
            if join is not None and join >= self.begin:
                self.put('<rect class="away" x="%d" y="%d" width="%g" height="%d"/>', LEFT, top, self.clip(join) - LEFT, height)
            if death is not None and death < self.end:
                x = self.clip(death)
                self.put('<rect class="dead" x="%g" y="%d" width="%g" height="%d"/>', x, top, right - x, height)

    def draw_columns(self):
        lines = "".join("M%d 22V%d" % (self.x(it), self.height - 6) for it in range(self.begin, self.end))
        self.put('<path class="grid" d="%s"/>', lines)
        for moment in range(self.begin, self.end):
            entry = self.story.trace.entries[moment]
            x = self.x(moment)
            kind = " of-death" if entry.kind == "death" else ""
            self.put('<text class="number%s" x="%g" y="16">%d</text>', kind, x, moment)
            if entry.kind not in ("death", "join"):
                continue
            place, top, height, _ = self.lanes[entry.place]
            self.put('<path class="%s" d="M%g %dv%d"/>', entry.kind, x, top, height)
            # beside the line where there is room, in few words if need be, and else before it, in the edge of the lane
            whole, short = ("✖ place %d dies" % place, "✖ dies") if entry.kind == "death" else ("✚ place %d joins" % place, "✚ joins")
            room = (self.width - x) / (LETTER + 0.6)
            if room > len(whole) + 1.25:
                said, kind, at = whole, "", (x + 8, top + 14)
            elif room > len(short) + 1:
                said, kind, at = short, "", (x + 6, top + 14)
            else:
                said, kind, at = short, " end", (x - 4, top + 8)
            self.put('<text class="%s-word%s" x="%g" y="%d">%s</text>', entry.kind, kind, *at, said)

    def draw_chain(self):
        """A line under the numbers, with a dot at each entry that tells a statement of the chain."""
        if not self.chain or min(self.chain) >= self.end or max(self.chain) < self.begin:
            return
        left, right = self.clip(min(self.chain)), self.clip(max(self.chain))
        dots = "".join("M%g 20a2.6 2.6 0 1 0 5.2 0a2.6 2.6 0 1 0 -5.2 0" % (self.x(it) - 2.6) for it in sorted(self.chain)
                       if self.begin <= it < self.end)
        self.put('<path class="chain" d="M%g 20H%g%s"/>', left, right, dots)

    def draw_root(self):
        """The bracket of the root scope, which the host opened and releases."""
        root, y = self.story.scopes[0], self.lanes[0][1] + 6 + LEVEL
        self.bracket(root, y, "s0, of the host")
        words = self.words_of(root.entry, LETTER) if root.entry and self.begin <= root.ended < self.end else None
        if words:
            x, kind = self.x(root.ended), " of-loss" if root.entry.lost else ""
            self.put('<path class="fault%s" d="M%g %gl5 8h-10z"/>', kind, x, y - 4)
            self.put('<text class="note end%s" x="%g" y="%g">%s</text>', kind, x - 8, y + 3, escape(words))

    def bracket(self, scope, y, label):
        first, last = scope.begin, self.total - 1 if scope.ended is None else scope.ended
        if scope.how == "gone" or scope.ended is None and scope.opener is not None:
            opener = self.story.activities[scope.opener]
            last = min(last, opener.over)
        if first >= self.end or last < self.begin:
            return
        left, right = self.clip(first), self.clip(last)
        is_begun, is_over = first >= self.begin, scope.how == "released" and last < self.end
        path = "M%g %g%sH%g%s" % (left, y if is_begun else y - 6, "v-6" if is_begun else "", right, "v6" if is_over else "")
        self.put('<path class="scope %s" d="%s"/>', scope.kind, path)
        self.put('<text class="scope-name" x="%g" y="%g">%s</text>', self.fit(left + 3, label), y + 1.5, label)

    def draw_bars(self, it):
        """The bar of an activity: a line where it travels, full where it runs, pale where it waits."""
        row, (first, last) = self.row_of[it.number], self.span(it)
        y, high = row.bar_top(), row.bar_height()
        begin = it.arrived if it.arrived is not None else last
        self.put('<g data-t="%d">', it.number)
        if it.travels() and begin > self.begin - 1 and not it.born_struck:
            left, right = self.clip(max(first, it.begin)), self.clip(min(begin, last))
            if it.begin >= self.begin:
                left += self.column / 2
            if right > left:
                self.put('<path class="travel p%d" d="M%g %gH%g"/>', it.place, left, row.middle(), right)
        if it.arrived is not None and it.arrived <= last:
            left = self.clip(max(it.arrived, first))
            if it.arrived == it.begin and it.begin >= self.begin:
                left += self.column / 2
            right = max(self.clip(last), left + 4)
            if it.over > self.end - 1:
                right = self.width - RIGHT
            bar = '<rect class="bar p%d" x="%g" y="%g" width="%g" height="%d"/>'
            self.put(bar, it.place, left, y, right - left, high)
            for start, end in it.waits:
                a, b = self.clip(start), self.clip(min(end if end is not None else last, last))
                if start < self.end and (end is None or end >= self.begin) and b > a:
                    self.put('<rect class="waits p%d" x="%g" y="%g" width="%g" height="%d"/>', it.place, a, y, b - a, high)
            if not row.is_thin:
                self.draw_name(it, left, right, y + BAR - 2.5)
        self.put("</g>")

    def draw_name(self, it, left, right, y):
        """The name of an activity, in the first gap of its bar that has room for it; it may have none."""
        name = "t%d" % it.number
        width = LETTER * len(name) + 2
        at = left + (6 if it.travels() and it.arrived >= self.begin else 3)
        for entry in self.marks_of(it):
            x, half = self.x(entry.number), self.half_of(entry)
            if x - half >= at + width:
                break
            at = max(at, x + half + 1)
        if at + width <= right:
            is_waiting = any(self.clip(a) <= at < self.clip(it.over if b is None else b) for a, b in it.waits)
            self.put('<text class="task%s" x="%g" y="%g">%s</text>', " waiting" if is_waiting else "", at, y, name)

    def half_of(self, entry):
        """Half the width of an entry's mark."""
        if entry.kind in ("print", "census"):
            return max(7, 3.1 * len(shortened(entry.value)) + 3)
        return {"wait": 0, "arrive": 0, "end": 1}.get(entry.kind, 4)

    def draw_start(self, it):
        """The line from the bar of the starter to that of the activity that it starts."""
        if not self.begin <= it.begin < self.end:
            return
        row, starter = self.row_of[it.number], self.row_of.get(it.starter)
        if starter is None:
            return
        x, y, to = self.x(it.begin), starter.middle(), row.middle()
        self.put('<path class="start%s p%d" d="M%g %gC%g %g %g %g %g %g"/>', " lost" if it.born_struck else "", it.place,
                 x, y, x + self.column / 4, y, x + self.column / 8, to, x + self.column / 2, to)
        if it.arrived is None or it.arrived > it.begin + 1:
            name = "t%d" % it.number
            self.put('<text class="traveller" x="%g" y="%g">%s</text>', self.fit(x + self.column / 2 + 2, name), row.bar_top() + 3, name)

    def draw_scopes(self, it):
        for scope in it.scopes:
            name = "s%d%s" % (scope.number, " at" if scope.kind == "at" else "")
            self.bracket(scope, self.row_of[it.number].top + (scope.level + 1) * LEVEL, name)

    def draw_marks(self, it):
        """A mark for each entry of an activity, for its events, and for its loss."""
        row = self.row_of[it.number]
        y, middle = row.bar_top(), row.middle()
        free = [0.0] * max(row.notes, 1)
        for entry in self.marks_of(it):
            x = self.x(entry.number)
            if entry.kind in ("print", "census"):
                half = self.half_of(entry)
                pill = '<rect class="%s" x="%g" y="%g" width="%g" height="%d" rx="5"/>'
                self.put(pill, entry.kind, x - half, y - 1.5, 2 * half, BAR + 3)
                self.put('<text class="value" x="%g" y="%g">%s</text>', x, y + BAR - 2, shortened(entry.value))
            elif entry.kind == "end":
                self.put('<path class="ends" d="M%g %gv%d"/>', x, y - 2, BAR + 4)
            elif entry.kind in ("spawn", "at"):
                self.put('<circle class="dot" cx="%g" cy="%g" r="2.6"/>', x, middle)
            elif entry.kind == "arrive":
                self.put('<path class="arrives" d="M%g %gl6 %gl-6 %gz"/>', x - 3, y, BAR / 2, BAR / 2)
            elif entry.kind == "release":
                self.put('<circle class="releases" cx="%g" cy="%g" r="3.2"/>', x, middle)
            self.draw_note(entry, x, y + BAR, free)
        for event in it.events:
            if self.begin <= event.stamp < self.end:
                is_refused = event.words[-2] in ("stale", "index", "full")
                at = self.x(event.stamp) - self.column / 2 + 3 + 2 * (event.number % 9)
                said = escape("journal %d: %s" % (event.place, event.line))
                kind = " refused" if is_refused else ""
                self.put('<path class="event%s" d="M%g %gv5"><title>%s</title></path>', kind, at, y + BAR - 1, said)
        if it.struck is not None and self.begin <= it.struck < self.end and (it.ended is None or it.struck < it.ended):
            x = self.x(it.struck) + (self.column / 2 + 5 if it.born_struck else 0)
            self.put('<path class="struck" d="M%g %gl8 8m0 -8l-8 8"/>', x - 4, middle - 4)

    def draw_note(self, entry, x, y, free):
        """What an entry names as lost, masked or thrown, in words below the bar where there is room, and as a mark in any case."""
        letter = 6.2 if entry.lost else LETTER
        text = self.words_of(entry, letter)
        if not text:
            return
        self.put('<path class="fault%s" d="M%g %gl5 8h-10z"/>', " of-loss" if entry.lost else "", x, y - BAR - 4)
        width = letter * len(text)
        left = min(x - 4, self.width - width - 4)
        for line, end in enumerate(free):
            if end <= left:
                kind = " of-loss" if entry.lost else ""
                self.put('<text class="note%s" x="%g" y="%g">%s</text>', kind, left, y + NOTE * (line + 1) - 2, escape(text))
                free[line] = left + width + 6
                return

    def words_of(self, entry, letter):
        """What an entry names as lost, masked or thrown, in as many words as have room in the strip, or nothing."""
        words = ["lost " + " ".join(map(str, entry.lost))] * bool(entry.lost)
        words += ["masked %d" % entry.masked] * bool(entry.masked)
        words += ["thrown " + counted(entry.thrown)] * bool(entry.thrown)
        return cut(", ".join(words), min(44, int((self.width - LEFT) / letter)))


def cut(text, most):
    """A text of at most so many letters."""
    return text if len(text) <= most else text[:most - 1] + "…"


def shortened(value):
    """A value in at most five letters."""
    return cut(str(value), 5)


def strips(story, columns, chain=frozenset(), column=COLUMN):
    """The strips of a trace, so many entries each, each in a column so wide. The entries of the chain are marked."""
    total = len(story.trace.entries)
    begun = sorted(story.activities.values(), key=lambda it: it.begin)
    alive, made, at = [], [], 0
    for begin in range(0, max(total, 1), columns):
        end = min(begin + columns, total)
        while at < len(begun) and begun[at].begin < end:
            alive.append(begun[at])
            at += 1
        alive = [it for it in alive if it.over >= begin]
        made.append(Strip(story, begin, end, alive, chain, column))
    return made
