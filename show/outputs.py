"""The tree of a channel's outputs: funding, the commitment that spends it, HTLC transactions and claims, each output coloured by who can spend it."""
from drawing import element, figure, lines, markup, short_text, tooltip, words
from story import kind_of, name_list, satoshis

STEP = 13
WIDE = 328
MOST = 800
BY = {"delay": "after the delay", "key": "with its key", "timeout": "by timeout", "preimage": "if it has the preimage", "revocation": "by revocation"}


class Tree:
    """The part of a tree that is drawn so far, from top to bottom."""

    def __init__(self, story, now):
        self.story, self.now = story, now
        self.parts, self.y, self.left_out = [], 0, 0

    def cell(self, states, told_of):
        """A cell with the text for each state of a thing, and the one for this moment."""
        cell = self.story.cells.add(None)
        for event, state in states:
            self.story.cells.set(cell, event, told_of(state))
        return cell, self.story.cells.value_at(cell, self.now) or "absent|"

    def output(self, output, depth, rail=None):
        """An output with all that spends it. `rail` is where a line comes down to it from its transaction."""
        if len(self.parts) >= MOST:
            self.left_out += 1
            return
        left, top = STEP * depth, self.y
        cell, state = self.cell(output.states, lambda it: f"{it}|{it}")
        kind, status = state.split("|")
        sides, first, late = output.sides, output.first_sides, output.late_ways
        elbow = [element("path", d=f"M{left - STEP + 8} {rail}V{top + 13}H{left}", class_="rail")] if rail else []
        inside = [*elbow, *chip(first, sides, left, top)]
        x = left + (40 if len(sides) == 2 else 26)
        inside.append(element("text", element("tspan", satoshis(output.value), class_="strong"), markup(f" {kind_of(output)}"), x=x, y=top + 17, class_="said"))
        inside.append(element("text", markup(status), x="100%", dx=-6, y=top + 17, class_="small soft end status", data_c=cell, data_part=1))
        terms = self.terms(output)
        y, lined = small_lines([*map(short_text, terms), *ways(output, [it for it in output.ways if it not in late])], x, top + 22)
        inside += lined
        y, lined = small_lines(ways(output, late), x, y)
        y += 4
        grounds = [ground(first, left, top, y)]
        if late:
            grounds.append(self.late_part(late, [*([ground(sides, left, top, y)] if first != sides else []), *chip(sides.replace(first, ""), sides, left, top), *lined]))
        self.parts.append(element("g", tooltip(output_text(output, terms)), *grounds, *inside, class_=f"output {kind}", role="listitem", data_c=cell, data_part=0))
        self.y = y + 2
        for spend in output.spenders:
            self.spend(spend, depth + 1, left, top + 22, output is spend.inputs[0])

    def terms(self, output):
        """What an HTLC's output was offered for, as a list of a line."""
        if output.kind != "htlc":
            return []
        digest = self.story.channels[output.channel].hashes[output.owner, output.more["id"]]
        return [f"hash {digest}, until height {output.more['expiry']:,}"]

    def late_part(self, late, inside):
        """What an output has from the event on at which a way to spend it came."""
        cell, state = self.cell([(late[0]["since"], "there|")], str)
        return element("g", *inside, class_=f"late {state.split('|')[0]}", data_c=cell, data_part=0)

    def spend(self, spend, depth, rail, top, first):
        """A transaction, and the outputs that it makes. They stand below the first output that it spends; below the others it is named alone."""
        left = STEP * depth
        cell, state = self.cell(spend.states, lambda height: "absent|" if height is None else f"there|block {height:,}")
        kind, status = state.split("|")
        elbow = element("path", d=f"M{rail + 6} {top}V{self.y + 12}h{STEP - 6}", class_="rail")
        name = [words(left + 4, self.y + 16 + 15 * number, line, "small strong") for number, line in enumerate(lines(spend.brief if first else f"{spend.brief}, see above", WIDE - left - 80, 12, bold=True))]
        status = element("text", markup(status), x="100%", dx=-6, y=self.y + 16, class_="small soft end status", data_c=cell, data_part=1)
        fee = f", fee {satoshis(spend.fee)}" if spend.fee else ""
        self.parts.append(element("g", tooltip(f"{spend.said}{fee}; transaction {spend.txid}"), elbow, *name, status, class_=f"spend {kind}", role="listitem", data_c=cell, data_part=0))
        self.y += 9 + 15 * len(name)
        if first and spend.without:
            _, lined = small_lines([f"no output for {name_list(spend.without, lambda one: one[0], lambda one: one[1])}"], left + 4, self.y - 4)
            self.parts.append(element("g", *lined, class_=f"spend {kind}", role="listitem", data_c=cell, data_part=0))
            self.y += 15 * len(lined)
        rail = self.y - 3
        for output in spend.outputs if first else []:
            self.output(output, depth + 1, rail)


def ground(sides, left, top, end):
    """The ground of an output, in the colour of who can spend it."""
    return element("rect", x=left, y=top + 1, width="100%", height=end - top - 2, rx=5, class_=f"ground {sides}")


def chip(some, sides, left, top):
    """Who can spend an output, as a letter on the side's colour; two where both can. Only some of them are drawn, each in its place."""
    found = []
    for number, side in enumerate(sides):
        if side in some:
            found.append(element("rect", x=left + 4 + 15 * number, y=top + 5, width=16, height=16, rx=3, class_=f"chip {side}"))
            found.append(words(left + 12 + 15 * number, top + 17, side, f"small middle strong on {side}"))
    return found


def small_lines(said, x, y):
    """Lines of small text from a height on, and the height of their end."""
    broken = [line for one in said for line in lines(one, WIDE - x - 8, 12)]
    return y + 15 * len(broken), [words(x, y + 11 + 15 * number, line, "small soft") for number, line in enumerate(broken)]


def ways(output, some):
    """Who can spend an output, how and from which block on, a line each. A way that came after the output has its event."""
    if output.kind in ("wallet", "funding"):
        return []
    return [f"{it['side']} {BY.get(it['by'], it['by'])}, from block {it['due']:,}{way_start(it)}" for it in some]


def way_start(way):
    return f", since event {way['since']:,}" if way["since"] >= 0 else ""


def output_text(output, terms):
    if output.kind == "htlc":
        terms = [*terms, f"number {output.more['index']} of the commitment's HTLCs with an output"]
    return f"{kind_of(output)} of {satoshis(output.value)}: {'; '.join([*terms, *ways(output, output.ways)]) or 'of ' + ' and '.join(output.sides)}. Outpoint {output.outpoint}"


def picture(story, channel, now, wide=None, headed=False):
    """A channel's tree, with its number above it or not."""
    tree = Tree(story, now)
    if headed:
        tree.parts.append(words(0, 14, f"Outputs of channel {channel.number}", "strong"))
        tree.y = 22
    tree.output(channel.funding, 0)
    if tree.left_out:
        tree.parts.append(words(4, tree.y + 16, f"{tree.left_out:,} more outputs are not drawn", "small strong"))
        tree.y += 24
    title = f"The outputs of channel {channel.number}"
    return tree.y + 4, figure(tree.parts, wide, tree.y + 4, title, "A tree from top to bottom: the funding output, the commitment that spends it, its outputs, and what spends each of them.", "tree", "list")
