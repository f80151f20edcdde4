"""Damaged traces: a text of a trace, changed so that it mostly still reads as one. All is drawn from one `random.Random`."""

import re

from model.lines import first_bad_line

HEAD = 5        # lines before the first entry
NUMBER = re.compile("[0-9]+")
FAULTS = ["dead:0", "dead:1", "dead:2", "code:5", "code:-1", "overflow", "noplace", "wrongplace", "stale", "index", "heapfull"]
PARTS = re.compile(r" (?:lost|masked|thrown|\|)(?: [^ |]+)*")
SWITCHED = [
    ("is 0", "stale"), ("ok", "stale"), ("ok", "index"), ("stale", "index"), ("full", "at 0 1"), ("host s0", "t0 s0"), ("open", "spawn"),
    ("end", "wait"), ("print", "census"), ("death", "join"), ("thrown", "lost"), ("lost", "masked"),
]


def numbered(lines):
    """The lines with the numbers of entries and events put in order."""
    count, made = 0, lines[:HEAD]
    for line in lines[HEAD:]:
        if line.startswith("journal ") or line == "done":
            count = 0
        else:
            line = "%d %s" % (count, line.partition(" ")[2])
            count += 1
        made.append(line)
    return made


def change_number(rng, line, first=1):
    """A line with one of its numbers changed, mostly a little; not the first, which is that of the line."""
    found = list(NUMBER.finditer(line))[first:]
    if not found:
        return line
    it = rng.choice(found)
    value = int(it[0]) + rng.choice([-1, -1, 1, 1, 2, -2, 7])
    return line[:it.start()] + str(rng.choice([max(0, value), max(0, value), 0, 1])) + line[it.end():]


def change_part(rng, line):
    """A line with a part behind its fields left out or begun, or with one item of a part less or more."""
    parts = list(PARTS.finditer(line))
    if parts and rng.random() < 0.7:
        part = rng.choice(parts)
        items = part[0].split(" ")[2:]
        if rng.random() < 0.5 or not items:
            return line[:part.start()] + line[part.end():]
        k = rng.randrange(len(items))
        more = rng.choice(FAULTS) if "thrown" in part[0] else "3" if "lost" in part[0] else rng.choice(items) + ".0"
        items[k:k + 1] = rng.choice([[], [more], [items[k], more], [items[k], items[k]]])
        return line[:part.start()] + " ".join(part[0].split(" ")[:2] + items) + line[part.end():]
    words = line.split(" ")
    kind = words[1] if len(words) > 1 else ""
    if kind == "release":
        return line + rng.choice([" lost 1", " masked 1", " thrown " + rng.choice(FAULTS)])
    if kind in ("end", "wait"):
        return line + " thrown " + rng.choice(FAULTS)
    return line + rng.choice([" | 0", " | 1.0"])


def change_fault(rng, line):
    """A line with one of its faults replaced."""
    found = list(re.finditer(r"(?:dead|code):-?[0-9]+|overflow|noplace|wrongplace|stale|index|heapfull", line))
    if not found:
        return line
    it = rng.choice(found)
    return line[:it.start()] + rng.choice(FAULTS) + line[it.end():]


def switch(rng, line):
    one, other = rng.choice(SWITCHED)
    return line.replace(one, other, 1) if one in line else line.replace(other, one, 1)


def change_line(rng, line):
    return rng.choice([change_number, change_number, change_number, change_part, change_fault, switch])(rng, line)


def kind_of(line):
    """The kind of an entry or of an event."""
    words = line.split(" ")
    return words[3] if len(words) > 3 and words[1][:1] == "t" else words[min(1, len(words) - 1)]


def line_to_change(rng, lines):
    """The number of a line behind the head; rare kinds of lines come as often as frequent ones, half of the time."""
    if rng.random() < 0.5:
        return rng.randrange(HEAD, len(lines))
    kinds = {}
    for at in range(HEAD, len(lines)):
        kinds.setdefault(kind_of(lines[at]), []).append(at)
    return rng.choice(kinds[rng.choice(sorted(kinds))])


def change_lines(rng, lines):
    """One change of the lines of a trace."""
    at = line_to_change(rng, lines)
    kind = rng.choice(["line", "line", "line", "swap", "delete", "double", "move", "head", "cut", "stamp"])
    if kind == "line":
        lines[at] = change_line(rng, lines[at])
    elif kind == "swap":
        lines[at - 1:at + 1] = lines[at - 1:at + 1][::-1] if at > HEAD else lines[at - 1:at + 1]
    elif kind == "delete":
        del lines[at]
    elif kind == "double":
        lines.insert(at, lines[at])
    elif kind == "move":
        lines.insert(rng.randrange(HEAD, len(lines)), lines.pop(at))
    elif kind == "head":
        head = rng.randrange(1, HEAD - 1)
        lines[head] = change_number(rng, lines[head], 0)
    elif kind == "cut":
        end = lines.index("journal 0") if "journal 0" in lines else len(lines)
        del lines[max(HEAD, end - rng.choice([1, 1, 2, 5])):end]
    else:
        events = [k for k, line in enumerate(lines) if re.match("[0-9]+ (t[0-9]+ [0-9]+ (make|get|put|forget)|[0-9]+ close)", line)]
        if events:
            k = rng.choice(events)
            front, _, rest = lines[k].partition(" ")
            change = rng.choice([-1, 1, 2])
            lines[k] = front + " " + re.sub("^((?:t[0-9]+ )?)([0-9]+)", lambda it: it[1] + str(max(0, int(it[2]) + change)), rest)


def damaged(rng, text):
    """The text of a trace with one to three changes, mostly one. Few of these are no traces any more."""
    bad_lines = 3 if rng.random() < 0.9 else 0
    while True:
        lines = text.split("\n")[:-1]
        for _ in range(rng.choice([1, 1, 1, 1, 2, 3])):
            # (a cut may have left nothing behind the head)
            if len(lines) > HEAD:
                change_lines(rng, lines)
        if rng.random() < 0.97:
            lines = numbered(lines)
        changed = "".join(line + "\n" for line in lines)
        if changed != text and (bad_lines == 0 or first_bad_line(changed) is None):
            return changed
        bad_lines = max(0, bad_lines - (changed != text))


def mutated(rng, text):
    """The bytes of a trace with some left out, changed or doubled. Few of these are traces."""
    made = bytearray(text)
    for _ in range(rng.choice([1, 1, 2])):
        at = rng.randrange(len(made))
        made[at:at + 1] = rng.choice([b"", b"%d" % rng.randrange(10), b" ", b"\n", bytes(made[at:at + 1]) * 2, bytes([rng.randrange(256)])])
    return bytes(made)
