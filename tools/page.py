"""The page of a trace: one HTML file that needs nothing else. What it shows stands in it as data, and page.js puts on the screen what is
in sight, so a long run opens and zooms as fast as a short one."""

import json
import pathlib
from html import escape

import activities
import lanes
import overview

HERE = pathlib.Path(__file__).resolve().parent
# Up to so many entries the page also has strips of fewer columns, for narrow screens and for zooming in.
SMALL = 3000
NARROWER = (8, 16)

LEGEND = [
    ('<rect class="bar p0" x="1" y="3" width="26" height="11"/>', "an activity runs"),
    ('<rect class="waits p0" x="1" y="3" width="26" height="11"/>', "it waits"),
    ('<path class="travel p0" d="M0 8H26"/>', "it travels"),
    ('<circle class="dot" cx="6" cy="8" r="2.6"/><path class="start p0" d="M8 8C14 8 12 14 24 14"/>', "it starts another"),
    ('<path class="scope" d="M2 12v-6H24v6"/>', "a finish"),
    ('<path class="scope at" d="M2 12v-6H24v6"/>', "an at"),
    ('<circle class="releases" cx="12" cy="8" r="3.2"/>', "a release"),
    ('<rect class="print" x="4" y="1" width="18" height="14" rx="5"/><text class="value" x="13" y="12">7</text>', "a print"),
    ('<path class="ends" d="M12 1v14"/>', "an end"),
    ('<path class="fault" d="M12 3l5 8h-10z"/>', "faults are carried on"),
    ('<path class="fault of-loss" d="M12 3l5 8h-10z"/>', "a lost place is named"),
    ('<path class="struck" d="M8 4l8 8m0 -8l-8 8"/>', "an activity is lost"),
    ('<rect class="dead" x="1" y="1" width="26" height="14"/>', "the place is dead"),
    ('<path class="event" d="M8 4v8"/><path class="event refused" d="M16 4v8"/>', "a store answers, refuses"),
]
CHAIN = ('<path class="chain" d="M2 8H24M4 8a2.6 2.6 0 1 0 5.2 0a2.6 2.6 0 1 0 -5.2 0"/>', "the longest chain of statements")
KEYS = [("← →", "choose an entry"), ("+ −", "zoom"), ("0", "fit"), ("d D", "next death, the one before"),
        ("l L", "next loss, the one before"), ("/", "search"), ("n N", "next hit, the one before")]
BUTTONS = [("out", "−", "key -"), ("in", "+", "key +"), ("fit", "fit", "key 0")]
JUMPS = [("death", "next death", "key d; D goes back"), ("loss", "next loss", "key l; L goes back")]


def kind_of(entry, chain):
    """The classes of an entry in the list."""
    kind = "loss" if entry.lost else "fault" if entry.thrown or entry.masked else entry.kind
    return kind + " on-chain" * (entry.number in chain)


def data_of(story, columns, found, chain):
    """What page.js shows: sets of strips of so many columns, the entries, and what became of each activity."""
    entries = story.trace.entries
    counts = [it for it in NARROWER if it < min(columns, len(entries)) and len(entries) <= SMALL] + [columns]
    sets = []
    for count in counts:
        made = [[it.begin, it.end, it.width, it.height, it.marked, it.svg] for it in lanes.strips(story, count, chain)]
        sets.append({"columns": count, "strips": made})
    rows = []
    for it in entries:
        source = found(it.path) if found and it.path else None
        rows.append([kind_of(it, chain), activities.in_words(it, story), it.line, source or ""])
    lives = {it.number: activities.life_in_words(it, story) for it in story.activities.values()}
    return {"sets": sets, "entries": rows, "lives": lives, "edge": lanes.EDGE, "column": lanes.COLUMN}


def buttons(which):
    return "".join('<button data-do="%s" title="%s">%s</button>' % (what, key, name) for what, name, key in which)


def heading(story, title):
    """What stands above the picture: the title, what was run and what came of it."""
    trace = story.trace
    root = trace.root()
    came = "the root is not released"
    if root:
        came = "the root was released" + (activities.names_of(root) or ", with nothing lost and nothing thrown")
    setup = "%d place%s, %d heap words each" % (trace.places, "" if trace.places == 1 else "s", trace.heap)
    setup += "; kills: %s" % (" ".join(trace.kills) or "none")
    if trace.joins:
        setup += "; joins: %s" % " ".join(trace.joins)
    counts = "%d entries, %d activities" % (len(trace.entries), len(story.activities))
    return "<h1>%s</h1><p>%s. %s; %s.</p>" % (escape(title), escape(setup), counts, escape(came))


def page(story, title, found, source, columns, chain):
    """The whole HTML file."""
    has = {"death": bool(story.deaths), "loss": any(it.lost for it in story.trace.entries)}
    legend = "".join('<span><svg width="28" height="17">%s</svg>%s</span>' % it for it in LEGEND + [CHAIN] * bool(chain))
    keys = "".join("<span><kbd>%s</kbd> %s</span>" % it for it in KEYS)
    shown = "<pre class=source>%s</pre>" % escape(source.rstrip()) if source else ""
    data = json.dumps(data_of(story, columns, found, chain), ensure_ascii=False, separators=(",", ":")).replace("</", "<\\/")
    hues = "".join(".p%d { --hue: %g }" % (it, lanes.hue(it)) for it in range(story.places))
    whole = ""
    if len(story.trace.entries) > 2 * columns:
        whole = '<div class="overview" title="the whole run: click, to go there">%s<i></i></div>' % overview.overview(story)
    return "".join([
        "<!doctype html>\n<html lang=en><head><meta charset=utf-8><meta name=viewport content='width=device-width'>",
        "<title>%s</title><style>%s%s%s</style></head>\n<body>" % (escape(title), read("picture.css"), hues, read("page.css")),
        '<svg width="0" height="0" style="position:absolute" aria-hidden="true">%s</svg>' % lanes.DEAD,
        '<header><div class="controls">', buttons(BUTTONS), '<span class="zoom"></span>', buttons(it for it in JUMPS if has[it[0]]),
        '<input type="search" placeholder="search" title="key /" aria-label="search the entries"><span class="hits"></span></div>',
        heading(story, title),
        '<details open><summary>Legend and keys</summary><div class="legend">%s</div><div class="legend">%s</div></details>' % (legend, keys),
        "</header>", whole, '<div class="page"><main tabindex="0"><div class="strips"></div>%s</main>' % shown,
        '<nav aria-label="entries" tabindex="0"><ol></ol></nav></div><div class="tip" hidden></div>',
        "<noscript>This page needs JavaScript. `rx10 draw -o x.svg` makes a picture that needs none.</noscript>",
        '<script type="application/json" id="data">%s</script>\n<script>%s</script></body></html>\n' % (data, read("page.js")),
    ])


def read(name):
    return (HERE / name).read_text("utf-8")
