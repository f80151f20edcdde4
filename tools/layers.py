#!/usr/bin/env python3
"""Draws docs/layers.svg: the crates of crates.txt in their layers, the lowest at the bottom.

usage: tools/layers.py

A line of comment in crates.txt begins a layer, and a crate's line names the crates on which it stands. The picture has a band for each
layer, which says on which other layers it stands. The crates of the longest chain have a thick edge, and each shows the names below
it where you point at it. A test holds the picture to crates.txt.

Exit status: 0; 2 the words, 125 crates.txt can't be read or the picture can't be written.
"""

import html
import pathlib
import sys
import textwrap

import ends
import paper

TOP = pathlib.Path(__file__).resolve().parent.parent
PICTURE = TOP / "docs" / "layers.svg"
# In units of the picture: its width, where the boxes of a band begin and end, and sizes of letters.
WIDTH, FIRST, LAST = 900, 200, 888
BOX, GAP, LETTER, LINE = 20, 6, 6.1, 13
# The words of a band's name in a line.
COLUMNS = 30
INK, FAINT, EDGE = "#1c2430", "#5c6880", "#3f4a63"
HUES = (212, 140, 32, 265, 178, 345, 60, 300, 100, 230, 15, 190, 0)


class Layer:
    """A layer: its number from the bottom, its name, and its crates, lowest first."""

    def __init__(self, number, name):
        self.number, self.name, self.crates = number, name, []


def read(text):
    """The layers of crates.txt, and for each crate the names on its line. A crate above the first comment stands in a layer without a name."""
    layers, below = [], {}
    for line in text.splitlines():
        code, _, comment = line.partition("#")
        name, found, names = code.partition(":")
        if found:
            if not layers:
                layers.append(Layer(1, ""))
            layers[-1].crates.append(name.split()[0])
            below[name.split()[0]] = names.split()
        elif comment.strip():
            layers.append(Layer(len(layers) + 1, comment.strip()))
    return layers, below


def longest_chain(below):
    """The longest list of crates in which each stands on the one before."""
    chains = {}

    def chain(name):
        if name not in chains:
            chains[name] = max((chain(it) for it in below[name] if it in below), key=len, default=[]) + [name]
        return chains[name]

    return max(map(chain, below), key=len, default=[])


def spelt(numbers):
    """Numbers in ascending order, those that follow one another as a range: 1 to 3, 5."""
    ranges = []
    for it in sorted(numbers):
        if ranges and ranges[-1][1] == it - 1:
            ranges[-1][1] = it
        else:
            ranges.append([it, it])
    return ", ".join("%d" % a if a == b else "%d%s%d" % (a, ", " if b == a + 1 else " to ", b) for a, b in ranges)


def element(kind, inside="", **attributes):
    words = "".join(' %s="%s"' % (name.replace("_", "-"), it) for name, it in attributes.items())
    return "<%s%s>%s</%s>" % (kind, words, inside, kind) if inside else "<%s%s/>" % (kind, words)


def text(x, y, words, **more):
    return element("text", html.escape(words), x=x, y=y, **{"font_size": 11, "fill": INK, **more})


def band(layer, y, others, below, chain):
    """The elements of a band whose upper edge is at y, and its height."""
    name = textwrap.wrap("%d %s" % (layer.number, layer.name), COLUMNS)
    boxes, x, rows = [], FIRST, 0
    for crate in layer.crates:
        width = round(LETTER * len(crate)) + 12
        if x + width > LAST:
            x, rows = FIRST, rows + 1
        top = y + 8 + rows * (BOX + GAP)
        thick = crate in chain
        box = element("rect", x=x, y=top, width=width, height=BOX, rx=3, fill="#ffffff", stroke=EDGE, stroke_width=2 if thick else 0.8)
        told = element("title", html.escape("%s: %s" % (crate, " ".join(below[crate]) or "stands on no crate")))
        boxes.append(element("g", told + box + text(x + 6, top + 14, crate, **({"font_weight": "bold"} if thick else {}))))
        x += width + GAP
    stands = "stands on %s" % spelt(others) if others else ""
    height = max(rows * (BOX + GAP) + BOX, LINE * (len(name) + bool(stands))) + 16
    hue = HUES[(layer.number - 1) % len(HUES)]
    lines = [text(12, y + 19 + LINE * i, it, font_weight="bold") for i, it in enumerate(name)]
    if stands:
        lines.append(text(12, y + 19 + LINE * len(name), stands, font_size=10, fill=FAINT))
    ground = element("rect", x=4, y=y, width=WIDTH - 8, height=height, rx=4, fill=paper.plain("hsl(%d 45%% 95%%)" % hue),
                     stroke=paper.plain("hsl(%d 30%% 80%%)" % hue))
    return "".join([ground, *lines, *boxes]), height


def drawn(listed):
    """The picture of this text of crates.txt."""
    layers, below = read(listed)
    chain = longest_chain(below)
    at = {crate: it.number for it in layers for crate in it.crates}
    parts, y = [], 4
    for layer in reversed(layers):
        others = {at[it] for crate in layer.crates for it in below[crate] if it in at} - {layer.number}
        part, height = band(layer, y, others, below, chain)
        parts.append(part)
        y += height + 5
    foot = "%d crates. Thick: the longest chain, of %d." % (len(below), len(chain))
    parts.append(text(12, y + 13, foot, font_size=10, fill=FAINT))
    head = element("rect", x=0, y=0, width=WIDTH, height=y + 22, fill="#ffffff")
    size = 'viewBox="0 0 %d %d" width="%d" height="%d"' % (WIDTH, y + 22, WIDTH, y + 22)
    return '<svg xmlns="http://www.w3.org/2000/svg" %s font-family="Helvetica, Arial, sans-serif">\n%s\n</svg>\n' % (size, "\n".join([head, *parts]))


def main(words):
    if words:
        print("usage: tools/layers.py", file=sys.stderr)
        return 2
    try:
        PICTURE.write_text(drawn((TOP / "crates.txt").read_text("utf-8")), "utf-8")
    except OSError as why:
        print("layers: %s: %s" % (why.filename, why.strerror), file=sys.stderr)
        return ends.FAILED
    return 0


if __name__ == "__main__":
    sys.exit(ends.guarded(main, sys.argv[1:]))
