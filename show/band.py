"""The band of who owns a channel's money over the events: A's from above, B's from below, and between them what is undecided, and fees."""
import bisect

from drawing import element, figure, markup, tooltip, words
from story import satoshis

HIGH = 84
TOP = 22
NARROW = 328
PARTS = ("A", "undecided", "fees", "B")


def runs(money, moments):
    """Stretches without a change: first and last moment, and the shares. Moment 0 stands before the first event, moment n + 1 after event n."""
    starts = [event + 1 for event, _ in money] + [moments]
    return [(start, end, owned) for start, end, (_, owned) in zip(starts, starts[1:], money) if end > start]


def heights(owned, capacity):
    """Where the shares begin and end, from 0 to HIGH. A share that is not nothing is seen."""
    found, at = [0.0], 0
    for share in owned:
        at += share
        found.append(round(HIGH * at / max(capacity, 1), 2))
    return found


def areas(channel, moments):
    """The shares over the moments, each a path in a box of moments times HIGH."""
    stretches = [(start, end, heights(owned, channel.capacity)) for start, end, owned in runs(channel.money, moments)]
    found = []
    for number, name in enumerate(PARTS):
        upper = "".join(f"L{start} {at[number]:g}L{end} {at[number]:g}" for start, end, at in stretches)
        lower = "".join(f"L{end} {at[number + 1]:g}L{start} {at[number + 1]:g}" for start, end, at in reversed(stretches))
        found.append(element("path", d=f"M{upper[1:]}{lower}z", class_=f"share {name}"))
    return found


def letters(channel, moments):
    """The names of the shares, each at the place at which its share is highest over the width of the name."""
    stretches = runs(channel.money, moments)
    starts = [start for start, _, _ in stretches]
    found = []
    for number, room, kind in ((0, 26, "strong middle on"), (1, 84, "small middle halo"), (3, 26, "strong middle on")):
        wide = moments * room / NARROW
        places = [wide / 2 + (moments - wide) * step / 19 for step in range(20)] if wide < moments else []
        high, x, y = max((clear_height(stretches, starts, channel.capacity, number, place, wide) for place in places), default=(0, 0, 0))
        if high >= 17:
            found.append(words(f"{100 * x / moments:.3f}%", round(TOP + y + 4.5, 1), PARTS[number], kind))
    return found


def clear_height(stretches, starts, capacity, number, place, wide):
    """The height that a share has across a width around a position, with the position and the middle of that height."""
    first = bisect.bisect_right(starts, place - wide / 2) - 1
    last = bisect.bisect_left(starts, place + wide / 2)
    at = [heights(owned, capacity) for _, _, owned in stretches[first:last]]
    top, bottom = max(it[number] for it in at), min(it[number + 1] for it in at)
    return bottom - top, place, (top + bottom) / 2


def legend(story, channel, now, y):
    """What each share is worth at a moment."""
    cell = channel.cells.setdefault("money", story.cells.add(None))
    for event, owned in channel.money:
        story.cells.set(cell, event, "|".join(satoshis(share) for share in owned))
    values = story.cells.value_at(cell, now).split("|")
    found = []
    for number, (name, value) in enumerate(zip(PARTS, values)):
        x, line = ("0%", "50%")[number in (2, 3)], y + 18 * (number % 2 if number < 2 else 3 - number)
        found.append(element("rect", x=x, y=line, width=12, height=12, rx=2, class_=f"share {name}"))
        value = element("tspan", markup(value), class_="value", data_c=cell, data_part=number)
        found.append(element("text", markup(f"{name} "), value, x=x, y=line + 10.5, dx=18, class_="small"))
    return found


def ticks(events, y):
    """Numbers of events under a band."""
    step = next(it for power in range(7) for it in (10**power, 2 * 10**power, 5 * 10**power) if events / it <= 6)
    found = []
    for number in range(0, events, step):
        place = 100 * (number + 1.5) / (events + 1)
        if place < 96:
            found.append(element("line", x1=f"{place:.3f}%", x2=f"{place:.3f}%", y1=y, y2=y + 4, class_="tick"))
            found.append(words(f"{place:.3f}%" if place > 2 else 0, y + 16, f"{number:,}", "small soft middle" if place > 2 else "small soft"))
    return found


def picture(story, channel, now, wide=None):
    """A channel's band."""
    events = len(story.rows)
    moments = events + 1
    title = f"Who owns the money of channel {channel.number}"
    box = element("svg", *areas(channel, moments), viewBox=f"0 0 {moments} {HIGH}", preserveAspectRatio="none", width="100%", height=HIGH, y=TOP, class_="band", aria_hidden="true")
    place = f"{100 * (now + 1.5) / moments:.3f}%"
    line = element("line", x1=place, x2=place, y1=TOP - 3, y2=TOP + HIGH + 3, class_="nowline")
    parts = [words(0, 14, f"Channel {channel.number}: {satoshis(channel.capacity)}", "strong"), box, *letters(channel, moments), line, *ticks(events, TOP + HIGH)]
    parts += legend(story, channel, now, TOP + HIGH + 26)
    high = TOP + HIGH + 26 + 36
    return high, figure(parts, wide, high, title, summary(channel), "money")


def summary(channel):
    first, last = channel.money[0][1], channel.money[-1][1]
    told_of = [", ".join(f"{name} {satoshis(share)}" for name, share in zip(PARTS, owned)) for owned in (first, last)]
    return f"At first: {told_of[0]}. At the end: {told_of[1]}."


def stripes():
    """The pattern of what is undecided: stripes along the band."""
    inside = [element("rect", width=6, height=6, class_="undecided ground"), element("rect", y=0, width=6, height=2, class_="undecided stripe")]
    return element("defs", element("pattern", *inside, id="undecided", width=6, height=6, patternUnits="userSpaceOnUse"))
