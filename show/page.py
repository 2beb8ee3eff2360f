"""The page around the pictures: one HTML text that stands alone, and pictures that stand alone."""
import json
import pathlib
import re

import band
import outputs
import script_tree
import sequence
from drawing import element, figure, markup
from story import PANEL, quantity, satoshis

HERE = pathlib.Path(__file__).resolve().parent
WINDOW = 200
# the widths of a tree of paths: for a phone, for a window of up to 1,239 pixels, and for a wider one
TREES = (("narrow", 328), ("medium", 560), ("wide", 820))
OPCODES = 328


def part(name):
    return (HERE / name).read_text(encoding="utf-8")


def document(title, inside):
    """A page of HTML. Nothing in it is fetched from anywhere."""
    return "\n".join(
        [
            "<!doctype html>",
            '<html lang="en" class="noscript">',
            "<head>",
            '<meta charset="utf-8">',
            '<meta name="viewport" content="width=device-width, initial-scale=1">',
            "<meta http-equiv=\"Content-Security-Policy\" content=\"default-src 'none'; style-src 'unsafe-inline'; script-src 'unsafe-inline'\">",
            '<link rel="icon" href="data:,">',
            f"<title>{markup(title)}</title>",
            f"<style>\n{part('picture.css')}{part('page.css')}</style>",
            "</head>",
            "<body>",
            *inside,
            "</body>",
            "</html>",
            "",
        ]
    )


def definitions():
    """What the pictures of a page share."""
    return f'<svg width="0" height="0" style="position:absolute" aria-hidden="true">{sequence.markers()}{band.stripes()}</svg>'


def scenario(story, name=""):
    """The page of a scenario. Without scripts it shows the last event that is drawn; its script begins at the first one."""
    count = len(story.rows)
    rows = [sequence.row_parts(row, len(story.channels)) for row in story.rows]
    now = min(count, WINDOW) - 1
    size = f"{quantity(count, 'event')} and {quantity(len(story.channels), 'channel')}"
    left, right = left_part(story, rows, now), right_part(story, now)
    inside = [definitions(), headline(name or f"A scenario of {size}", size if name else ""), "<main>", controls(story, now), '<div class="parts">', *left, *right, "</div>", "</main>"]
    if count:
        inside += [data(story, rows), f"<script>\n{part('page.js')}</script>"]
    return document(name or f"A scenario of {size}", inside)


def headline(title, more):
    """The head of a page: its name, and what it is of where that is not its name."""
    more = f'<p class="soft">{markup(more[:1].upper() + more[1:])}.</p>' if more else ""
    return f"<header><h1>{markup(title)}</h1>{more}</header>"


def right_part(story, now):
    """How all stands: who owns the money, the outputs, and the rest in words."""
    bands = [band.picture(story, channel, now)[1] for channel in story.channels]
    trees = [(channel, outputs.picture(story, channel, now)[1]) for channel in story.channels]
    found = ['<section class="state" aria-label="How all stands after this event" tabindex="0">', "<h2>Who owns the money</h2>", *bands]
    found.append('<p class="soft">Off the chain each side has what its newest commitment gives it, before fees. On the chain an output is undecided while both sides can spend it.</p>')
    for number, (channel, tree) in enumerate(trees):
        found.append(f"<h2>Outputs of channel {channel.number}</h2>")
        if number == 0:
            found.append('<p class="soft">The letters say who can spend an output, and the lines below it how, and from which block on. A pale one is spent.</p>')
        found.append(tree)
    return [*found, panel(story, now), f'<p class="soft">{markup(end_sentence(story))}</p>', "</section>"]


def left_part(story, rows, now):
    """The sequence, or the first part of a long one. In a narrow window it scrolls in a box of its own."""
    high, picture = sequence.picture(story, rows[:WINDOW], 0, now)
    note = f"Events 0 to {WINDOW - 1} of {len(rows):,} are drawn." if len(rows) > WINDOW else ""
    heads = element("svg", *sequence.heads(), width="100%", height=sequence.HEAD, aria_hidden="true")
    box = ['<div class="events" tabindex="-1">', f'<div class="heads">{heads}</div>', picture, "</div>"]
    return ['<section aria-label="What happens">', "<h2>What happens</h2>", legend(), f'<p class="soft" id="window">{note}</p>', *box, "</section>"]


def legend():
    """What the signs of the sequence mean. The script of the page folds it in a narrow window."""
    arrow = {"x1": 2, "x2": 34, "y1": 8, "y2": 8, "marker_end": "url(#head-A)"}
    signs = [
        (element("circle", cx=4, cy=8, r=3, class_="dot A") + element("line", **arrow, class_="arrow way A"), "a message leaves"),
        (element("line", **arrow, class_="arrow A"), "a message arrives, or a transaction or a look reaches the chain"),
        (element("rect", x=13, y=3, width=10, height=10, rx=2, class_="mark A"), "a side keeps penalties or takes jobs"),
        (element("rect", x=2, y=2, width=32, height=12, rx=4, class_="block"), "blocks"),
        ("".join(element("line", x1=13, y1=start, x2=23, y2=16 - start, class_="cross") for start in (3, 13)), "refused"),
    ]
    rows = "".join(f"<li>{element('svg', sign, width=36, height=16, aria_hidden='true')}<span>{said}</span></li>" for sign, said in signs)
    more = "Blue and A: side A. Orange and B: side B. HTLC A0 is the first one that A offered in its channel."
    choose = ' <span class="more">The slider, the arrow keys, Home, End or a click choose an event.</span>'
    return f'<details class="legend" open><summary>Signs</summary><ul>{rows}</ul><p>{more}{choose}</p></details>'


def controls(story, now):
    """The slider over the events, and the sentence of the event that it is on."""
    if not story.rows:
        return '<p class="soft">There are no events.</p>'
    said, brief = (markup(tell(story.rows[now], len(story.channels))) for tell in (sequence.sentence, sequence.short_sentence))
    return (
        '<div class="controls"><div class="bar"><button id="before" type="button" aria-label="The event before">&#8592;</button>'
        f'<input id="event" type="range" min="0" max="{len(story.rows) - 1}" value="{now}" step="1" aria-label="Event" aria-valuetext="{said}">'
        '<button id="after" type="button" aria-label="The next event">&#8594;</button></div>'
        f'<output id="said" for="event" aria-live="polite">{brief}</output></div>'
    )


def panel(story, now):
    """The current state: a list of names and values."""
    found = ["<h2>How all stands</h2>", "<dl>"]
    found += [entry(PANEL[name], cell, story, now) for name, cell in story.panel.items()]
    for channel in story.channels:
        place = f"ch {channel.number}: " if len(story.channels) > 1 else ""
        found += [entry(place + PANEL[name], cell, story, now) for name, cell in channel.cells.items() if name in PANEL]
    found.append("</dl>")
    return "".join(found)


def entry(name, cell, story, now):
    return f'<dt>{name}</dt><dd data-c="{cell}">{markup(story.cells.value_at(cell, now))}</dd>'


def end_sentence(story):
    """How the run ends, in a sentence."""
    if story.end is None:
        return f"{story.stops()}."
    end = story.end
    refused = sum(row.refused for row in story.rows)
    said = f"It ends at height {end['height']:,} with {quantity(end['unspent'], 'unspent output')} worth {satoshis(end['value'])}, and {satoshis(end['fees'])} of fees."
    return said + (f" {quantity(refused, 'event')} {'was' if refused == 1 else 'were'} refused." if refused else "")


def data(story, rows):
    """All rows and cells, for the script of the page."""
    texts, numbers, cells = [], {}, []
    for history in story.cells.histories:
        line = []
        for event, value in history:
            value = "absent|" if value is None else value
            if value not in numbers:
                numbers[value] = len(texts)
                texts.append(value)
            line += [event, numbers[value]]
        cells.append(line)
    text = json.dumps({"rows": rows, "texts": texts, "cells": cells}, separators=(",", ":"), ensure_ascii=False)
    return f'<script type="application/json" id="data">{text.replace("<", chr(92) + "u003c")}</script>'


def scripts(objects, name=""):
    """The page of scripts."""
    size = script_heading(objects[0]) if len(objects) == 1 else quantity(len(objects), "script")
    inside = [headline(name or size, size if name else ""), "<main>"]
    for number, script in enumerate(objects):
        if len(objects) > 1:
            inside.append(f"<h2>{number}: {script_heading(script)}</h2>")
        inside += ['<div class="parts script">', '<section aria-label="Opcodes">', "<h2>Opcodes</h2>", script_tree.opcodes(script, OPCODES), "</section>"]
        inside += ['<section aria-label="Paths">', "<h2>Paths</h2>"]
        if "paths" in script:
            for kind, wide in TREES:
                inside.append(f'<div class="{kind}">{script_tree.paths(script, wide)}</div>')
        else:
            inside.append("<p>None are listed: the script is refused.</p>")
        inside += [*notes(script), "</section>", "</div>"]
    inside += ["</main>"]
    return document(name or size, inside)


def notes(script):
    """What endangers money, where a refusal comes from, and what else is noted of a script."""
    found = "".join(f"<li>{markup(it)}</li>" for it in script.get("notes", []))
    return ["<h2>Notes</h2>", f'<ul class="notes">{found}</ul>'] if found else []


def script_heading(script):
    size = script_tree.size_of(script)
    return size[:1].upper() + size[1:]


def lone_picture(wide, high, title, description, inside):
    """A picture that stands alone, with its own styles and ground."""
    ground = element("rect", width="100%", height="100%", class_="page")
    style = f"<style>{re.sub(r'/[*].*?[*]/', '', part('picture.css'), flags=re.S).strip()}</style>"
    shared = sequence.markers() + band.stripes()
    whole = figure([style, shared, ground, *inside], wide, high, title, description, "alone")
    # a line for each shape, so that a change is a small one
    return re.sub(r">(?=<(?:g|rect|path|text|line|circle|svg|defs|style)\b)", ">\n", whole) + "\n"


def placed_picture(x, y, wide, picture):
    """A picture in a place of another one."""
    return picture.replace("<svg ", f'<svg x="{x}" y="{y}" ', 1).replace('width="100%"', f'width="{wide}"', 1)


def scenario_picture(story, name):
    """The picture of a scenario: its sequence, and beside it the bands and trees after the last event."""
    now, margin, column = len(story.rows) - 1, 16, 400
    rows = [sequence.row_parts(row, len(story.channels)) for row in story.rows[:WINDOW]]
    high, picture = sequence.picture(story, rows, 0, None)
    heads = element("svg", *sequence.heads(), width="100%", height=sequence.HEAD)
    inside = [placed_picture(margin, 8, column, heads), placed_picture(margin, 8 + sequence.HEAD, column, picture)]
    y, x = 8, 2 * margin + 24 + column
    several = len(story.channels) > 1
    drawn = [band.picture(story, it, now) for it in story.channels] + [outputs.picture(story, it, now, headed=several) for it in story.channels]
    for tall, picture in drawn:
        inside.append(placed_picture(x, y, column, picture))
        y += tall + 20
    title = f"The scenario {name}" if name else "A scenario"
    whole = max(high + sequence.HEAD + 24, y)
    return lone_picture(x + column + margin, whole, title, f"{quantity(len(story.rows), 'event')}. {end_sentence(story)}", inside)


def script_picture(script):
    """The picture of a script: its opcodes, and beside them the tree of its paths."""
    left, right = script_tree.opcodes(script, OPCODES), script_tree.paths(script, 560) if "paths" in script else None
    highs = [int(it.split(' height="', 1)[1].split('"', 1)[0]) for it in (left, right) if it]
    inside = [placed_picture(16, 12, OPCODES, left)] + ([placed_picture(OPCODES + 48, 12, 560, right)] if right else [])
    wide = OPCODES + 32 + (592 if right else 0)
    return lone_picture(wide, max(highs) + 24, script_heading(script), "Its opcodes, and beside them the tree of its paths.", inside)
