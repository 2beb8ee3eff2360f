"""Parts of a picture in SVG: elements, and texts that are broken into lines of a width.

Widths are those of DejaVu Sans, one of the widest fonts of the list in picture.css. So a text takes at most the width that is counted here.
"""
import html
import re

# the characters of each width, in hundredths of the font's size
WIDTHS = {
    width: letters
    for width, letters in [
        (27, "'"), (28, "ijl"), (29, "IJ"), (32, " ,.·"), (34, "/:;\\|"), (35, "f"), (36, "-"), (39, "()[]t"), (40, "!"), (41, "r"), (46, '"'),
        (50, "*_`–"), (52, "sz"), (53, "?"), (55, "c"), (56, "L"), (58, "Fk"), (59, "vxy"), (60, "P"), (61, "TYao"), (62, "e"), (63, "ESbdghnpqu"),
        (64, "$0123456789{}"), (66, "K"), (68, "AV"), (69, "BRXZ"), (70, "C"), (73, "U"), (75, "HN"), (77, "DG"), (78, "&"), (79, "OQ"), (82, "w"),
        (84, "#+<=>^~→←×"), (86, "M"), (95, "%"), (97, "m"), (99, "W"),
    ]
}
WIDTH = {letter: width for width, letters in WIDTHS.items() for letter in letters}
LONG = re.compile(r"\b[0-9a-f]{17,}\b")


def width(text, size, bold=False, mono=False):
    """The most that a text takes, in pixels."""
    if mono:
        return 0.61 * size * len(text)
    return size * sum(WIDTH.get(letter, 100) for letter in text) / (87 if bold else 100)


def short_text(text):
    """The text with each long number in hexadecimal by its first four and last two digits."""
    return LONG.sub(lambda it: f"{it[0][:4]}..{it[0][-2:]}", text)


def lines(text, room, size, bold=False, mono=False):
    """The text in lines of at most `room` pixels. A channel's number stays beside its `ch`, and a word that is too long for a line is cut into several."""
    found, line = [], ""
    for word in re.findall(r"ch \d+\S*|\S+", text):
        longer = f"{line} {word}" if line else word
        if width(longer, size, bold, mono) <= room:
            line = longer
            continue
        if line:
            found.append(line)
        while width(word, size, bold, mono) > room:
            most = next(n for n in range(len(word), 0, -1) if n == 1 or width(word[:n], size, bold, mono) <= room)
            found.append(word[:most])
            word = word[most:]
        line = word
    return [*found, line] if line else found


def fitted_text(text, room, size, bold=False, mono=False):
    """The text, or as much of its beginning as `room` pixels hold, followed by two points."""
    if width(text, size, bold, mono) <= room:
        return text
    while text and width(text + "..", size, bold, mono) > room:
        text = text[:-1]
    return text.rstrip() + ".."


def element(name, *inside, **attributes):
    """An element. `class_` stands for class, and an underscore in a name for a hyphen."""
    said = "".join(f' {key.rstrip("_").replace("_", "-")}="{markup(value)}"' for key, value in attributes.items() if value is not None)
    return f"<{name}{said}>{''.join(inside)}</{name}>" if inside else f"<{name}{said}/>"


def markup(value):
    return html.escape(format(value, ".7g") if isinstance(value, float) else str(value))


def words(x, y, text, kind="", **more):
    """A text in the picture."""
    return element("text", markup(text), x=x, y=y, class_=kind or None, **more)


def tooltip(text):
    """The title of an element: a screen reader reads it, and it is shown while the pointer is on the element."""
    return element("title", markup(text))


def figure(inside, wide, high, title, description, kind=None, role="group"):
    """A whole picture of `wide` by `high` pixels; without a width it fills the place that it has. Its role is `list` where its parts are items."""
    box = {"viewBox": f"0 0 {wide} {high}", "width": wide} if wide else {"width": "100%"}
    inside = [tooltip(title), element("desc", markup(description)), *inside]
    return element("svg", *inside, xmlns="http://www.w3.org/2000/svg", **box, height=high, role=role, class_=kind, aria_label=title)
