"""The picture as one SVG file that any reader shows.

Many readers of SVG know no style sheets, or only old ones. So the rules of picture.css become attributes of each element, in plain
colours, with nothing left to be looked up.
"""

import colorsys
import math
import pathlib
import re

import lanes

STYLES = pathlib.Path(__file__).resolve().parent / "picture.css"
POINTS_IN_MM = 72 / 25.4
# The smallest letters of the picture have 9 units, and are to have 6 points on paper.
UNITS_IN_POINT = 9 / 6
# The width of a column where the picture's width is given.
NARROW = 24


def columns_of(millimetres):
    """How many entries a strip may have that is to be so wide on paper."""
    return int((millimetres * POINTS_IN_MM * UNITS_IN_POINT - lanes.MARGIN) // NARROW)


def least_width(columns):
    """How many millimetres a strip of so many entries needs."""
    return math.ceil((lanes.MARGIN + columns * NARROW) / UNITS_IN_POINT / POINTS_IN_MM)


def plain(colour):
    """A colour with nothing left to be looked up: `hsl(212 45% 96%)` as `#f1f5fa`."""

    def hexadecimal(found):
        hue, saturation, light = (float(it) for it in found.groups())
        rgb = colorsys.hls_to_rgb(hue % 360 / 360, light / 100, saturation / 100)
        return "#%02x%02x%02x" % tuple(round(255 * it) for it in rgb)

    return re.sub(r"hsl\(([\d.]+) ([\d.]+)% ([\d.]+)%\)", hexadecimal, colour)


class Styles:
    """The rules of picture.css, for light paper."""

    def __init__(self):
        text = STYLES.read_text("utf-8")
        self.variables = dict(re.findall(r"(--[\w-]+): ([^;]+);", text.split("}", 1)[0]))
        self.rules = [(set(it.strip(".").split(".")), re.findall(r"([\w-]+): ([^;]+);", what))
                      for it, what in re.findall(r"^svg (\S+) \{(.*)\}", text, re.M)]
        self.known = {}

    def attributes(self, tag, classes):
        """The attributes that stand for the classes of an element."""
        if (tag, classes) not in self.known:
            names, found = {tag, *classes.split()}, {}
            for needed, declared in self.rules:
                if needed <= names:
                    found.update(declared)
            hue = next((lanes.hue(int(it[1:])) for it in names if re.fullmatch(r"p\d+", it)), 0)
            variables = {**self.variables, "--hue": "%g" % hue}
            for name, value in found.items():
                value = re.sub(r"var\((--[\w-]+)\)", lambda it: variables[it[1]], value)
                found[name] = plain(value)[:-2] if name == "font-size" else plain(value)
            self.known[tag, classes] = "".join(' %s="%s"' % it for it in found.items())
        return self.known[tag, classes]

    def inlined(self, svg):
        """A piece of SVG with attributes in place of classes."""

        def element(found):
            return "<%s%s%s" % (found[1], found[2], self.attributes(found[1], found[3]))

        svg = re.sub(r'<g data-t="\d+">', "<g>", svg)
        return re.sub(r'<(\w+)([^<>]*?) class="([^"]*)"', element, svg)


def svg_file(story, columns, chain, millimetres=None):
    """The strips below one another as one SVG that stands by itself, as wide as is said, or in the size that they have on a screen."""
    strips = lanes.strips(story, columns, chain, NARROW if millimetres else lanes.COLUMN)
    parts, top = [], 4
    for it in strips:
        parts.append('<g transform="translate(0 %d)">%s</g>' % (top, it.svg))
        top += it.height + 10
    width = max(it.width for it in strips)
    size = 'width="%d" height="%d"' % (width, top)
    if millimetres:
        size = 'width="%dmm" height="%.1fmm"' % (millimetres, millimetres * top / width)
    ground = '%s<rect width="%d" height="%d" fill="#ffffff"/>' % (lanes.DEAD, width, top)
    head = '<svg xmlns="http://www.w3.org/2000/svg" viewBox="0 0 %d %d" %s font-family="Helvetica, Arial, sans-serif">' % (width, top, size)
    return "%s\n%s\n</svg>\n" % (head, Styles().inlined(ground + "\n" + "\n".join(parts)))
