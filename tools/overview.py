"""The overview of a long run: one strip with all of it, a line for each place and a line for losses.

A place's line is as high as the place was busy then, against its own busiest time. The strip is drawn in units of its own, and the page
stretches it to its width.
"""

STEPS = 400
LINE = 10


def busy(story):
    """For each place, how many entries it has in each step of the run, a step being the same number of entries for all."""
    total = len(story.trace.entries)
    counts = [[0] * STEPS for _ in range(story.places)]
    for entry in story.trace.entries:
        task = story.activities.get(entry.task)
        place = task.place if task else entry.place or 0
        counts[place][entry.number * STEPS // total] += 1
    return counts


def overview(story):
    """The overview as SVG."""
    total = len(story.trace.entries)
    counts = busy(story)
    width = total / STEPS
    parts = ['<svg viewBox="0 0 %d %d" preserveAspectRatio="none" aria-hidden="true">' % (total, LINE * (story.places + 1))]
    for place, row in enumerate(counts):
        bottom, most = LINE * (place + 1), max(row) or 1
        parts.append('<rect class="lane p%d" x="0" y="%d" width="%d" height="%d"/>' % (place, bottom - LINE, total, LINE))
        steps = "".join("V%.4gh%.5g" % (it, width) for it in (bottom - count * (LINE - 1) / most for count in row))
        parts.append('<path class="busy p%d" d="M0 %d%sV%dz"/>' % (place, bottom, steps, bottom))
        if place in story.deaths:
            death = story.deaths[place]
            parts.append('<rect class="dead-ground" x="%d" y="%d" width="%d" height="%d"/>' % (death, bottom - LINE, total - death, LINE))
            parts.append('<path class="death tick" d="M%d %dv%d"/>' % (death, bottom - LINE, LINE))
        if place in story.joins:
            parts.append('<path class="join tick" d="M%d %dv%d"/>' % (story.joins[place], bottom - LINE, LINE))
    losses = "".join("M%d %dv%d" % (it.number, LINE * story.places, LINE) for it in story.trace.entries if it.lost)
    parts.append('<path class="loss tick" d="%s"/></svg>' % losses)
    return "".join(parts)
