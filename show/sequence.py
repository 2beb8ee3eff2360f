"""The sequence of a scenario's events: both sides and the chain between them, time downwards, a row for each event."""
from drawing import element, figure, lines, short_text, tooltip, words
from story import PEER, quantity

LONG = 80
PLACES = {"A": 17, "chain": 56, "B": 95}
GUTTER = 42
ROOM = 328 - GUTTER - 8
BLOCK_ROOM = 262
HEAD = 30


def heads():
    """The names of the sides and the chain, above the first row."""
    parts = []
    for who, place in PLACES.items():
        half = 26 if who == "chain" else 14
        parts.append(element("rect", x=f"{place}%", y=4, width=2 * half, height=20, rx=10, transform=f"translate({-half},0)", class_=f"head {who}"))
        parts.append(words(f"{place}%", 18, who, f"middle strong on {who}"))
    return parts


def lifelines(high):
    """The lines down from the heads, behind all rows."""
    return [element("line", x1=f"{place}%", x2=f"{place}%", y1=0, y2=high, class_=f"life {who}") for who, place in PLACES.items()]


def texts(row, room):
    """The lines of a row's text, each with its kind: first what happens, then more of it, smaller."""
    found = [(line, "said") for line in lines(row.said, room, 13)]
    return found + [(line, "small soft") for more in row.few for line in lines(short_text(more), room, 12)]


def row_parts(row, channels):
    """A row: its height and its parts, measured from its own top."""
    blocks = row.actor == "chain" and not row.refused
    x, side = {"A": (GUTTER, ""), "B": ("100%", " end"), "chain": (f"{PLACES['chain']}%", " middle")}[row.actor]
    kind_of_all, shift = side + (" bad" if row.refused else ""), -6 if row.actor == "B" else None
    written, shapes, y = [], [], 4
    for line, kind in texts(row, BLOCK_ROOM if blocks else ROOM):
        if kind != "said" and not shapes and row.arrows[:1] == [("from chain", row.actor)]:
            # what a look found stands below its arrow
            shapes = marks(row, y + 11)
            y += 14
        y += 16
        written.append(words(x, y, line, kind + kind_of_all, dx=shift))
    if blocks:
        shapes = [element("rect", x="14%", y=5, width="84%", height=y + 3, rx=5, class_="block")]
        y += 2
    elif not shapes:
        shapes = marks(row, y + 11)
        y += 11 if len(row.arrows) < 2 else 21
    written.append(words(4, 20, row.number, "number"))
    if channels > 1 and row.channel is not None:
        written.append(words(4, 34, f"ch {row.channel}", "small soft"))
    high = max(y + 9, 42)
    ground = element("rect", width="100%", height=high, class_="ground")
    return high, "".join([tooltip(sentence(row, channels)), ground, *shapes, *written])


def sentence(row, channels):
    place = f", channel {row.channel}" if channels > 1 and row.channel is not None else ""
    said = short_text("; ".join([row.said, *row.few])).replace("; takes", " takes", 1).replace("; of", " of", 1).replace("; until", " until", 1)
    return f"Event {row.number}{place}: {said}"


def short_sentence(row, channels):
    """The sentence of an event. Where it is long, it is told without its details, as the page's script does."""
    whole = sentence(row, channels)
    return whole if len(whole) <= LONG else whole[: whole.index(": ") + 2] + row.said


def marks(row, y):
    """The arrows and marks of a row."""
    if row.refused:
        return [cross(PLACES[row.actor], y)]
    found = []
    for kind, who in row.arrows:
        if kind == "sends":
            found += stub(who, y)
        elif kind == "receives":
            found.append(arrow(PEER[who], PLACES[PEER[who]], PLACES[who], y))
        elif kind == "to chain":
            found.append(arrow(who, PLACES[who], PLACES["chain"], y))
        elif kind == "from chain":
            found.append(arrow("chain", PLACES["chain"], PLACES[who], y))
        elif kind == "keeps":
            found.append(element("rect", x=f"{PLACES[who]}%", y=y - 5, width=10, height=10, rx=2, transform="translate(-5,0)", class_=f"mark {who}"))
        y += 10
    return found


def cross(place, y):
    """The mark of a refused event."""
    strokes = [element("line", x1=0, y1=start, x2=10, y2=10 - start, class_="cross") for start in (0, 10)]
    return element("svg", *strokes, x=f"{place}%", y=y - 5, width=10, height=10, class_="half")


def arrow(who, start, end, y):
    """An arrow that arrives."""
    inset = 0.8 if end > start else -0.8
    return element("line", x1=f"{start}%", x2=f"{end - inset}%", y1=y, y2=y, class_=f"arrow {who}", marker_end=f"url(#head-{who})")


def stub(who, y):
    """A message that leaves, and is on its way."""
    start = PLACES[who]
    end = start + (14 if who == "A" else -14)
    return [
        element("line", x1=f"{start}%", x2=f"{end}%", y1=y, y2=y, class_=f"arrow way {who}", marker_end=f"url(#head-{who})"),
        element("circle", cx=f"{start}%", cy=y, r=3, class_=f"dot {who}"),
    ]


def markers():
    """The heads of arrows, each in its colour."""
    tip = element("path", d="M0 0L8 4L0 8z")
    return element("defs", *[element("marker", tip, id=f"head-{who}", viewBox="0 0 8 8", refX=7, refY=4, markerWidth=8, markerHeight=8, markerUnits="userSpaceOnUse", orient="auto", class_=f"tip {who}") for who in PLACES])


def stacked_rows(rows, first, now):
    """Rows one under another: their height together, and their parts. `rows` are pairs of a height and parts."""
    y, found = 0, []
    for number, (high, parts) in enumerate(rows, first):
        found.append(f'<g class="row{" now" if number == now else ""}" role="listitem" data-n="{number}" transform="translate(0,{y})">{parts}</g>')
        y += high
    return y, "".join(found)


def picture(story, rows, first, now, wide=None):
    """The rows from `first` on."""
    high, inside = stacked_rows(rows, first, now)
    parts = [element("g", *lifelines("100%")), element("g", inside, class_="rows", role="list")]
    title = f"Sequence of {quantity(len(rows), 'event')}, from event {first}"
    return high, figure(parts, wide, high + 6, title, "Both sides and the chain between them. Time goes downwards. Dashed arrows are messages that leave, whole ones messages that arrive.", "sequence")
