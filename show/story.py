"""A scenario's trace, read event by event: a sentence for each event, and the state after it."""
import heapq
from collections import deque
from dataclasses import dataclass, field

from reasons import refusal_words

SIDES = ("A", "B")
PEER = {"A": "B", "B": "A"}
# how much of a list a picture has
WHOLE_LISTS = 6
# the weights of an HTLC-timeout and of an HTLC-success transaction (BOLT 3, without anchors): an HTLC that does not pay for its own has no output
TIMEOUT, SUCCESS = 663, 703
# what a panel calls each of its lines
PANEL = {"height": "chain", "pool": "in the pool", "jobs": "jobs", "kept": "penalties", "commitments": "commitments", "htlcs": "HTLCs", "way": "on the way"}
# what the secret of a revoked commitment opens to the other side
REVOCABLE = ("to_local", "htlc", "second_stage")


def satoshis(value):
    """An amount in satoshis; large ones in bitcoins."""
    if value >= 10**10:
        return f"{value / 10**8:,.4f}".rstrip("0").rstrip(".") + " BTC"
    return f"{value:,} sat"


def millisatoshis(value):
    return satoshis(value // 1000) if value % 1000 == 0 or value >= 10**13 else f"{value // 1000:,}.{value % 1000:03} sat"


def quantity(count, what, more=None):
    return f"{count:,} {what if count == 1 else more or what + 's'}"


@dataclass
class Output:
    """An output, and the events at which it came and went: pairs of an event and whether it is unspent after it. Where a revocation opens it, `commitment` has owner and number."""

    outpoint: str
    channel: int
    value: int
    kind: str
    owner: str | None
    ways: list
    more: dict
    states: list = field(default_factory=list)
    spenders: list = field(default_factory=list)
    commitment: tuple | None = None

    @property
    def sides(self):
        """Who can spend it, at once or later."""
        return "".join(sorted({it["side"] for it in self.ways})) or self.owner or "AB"

    @property
    def late_ways(self):
        """The ways that came after the output did."""
        return [it for it in self.ways if it["since"] >= 0]

    @property
    def first_sides(self):
        """Who can spend it by the other ways."""
        return "".join(sorted({it["side"] for it in self.ways if it["since"] < 0})) or self.sides

    def spender(self):
        """The transaction of a block that spends it."""
        return next(it for it in self.spenders if it.states[-1][1] is not None)

    def set_ways(self, ways, event):
        """The ways to spend it from an event on. One that came after the output has the event at which it came as `since`, the others -1."""
        since = {it["by"]: it["since"] for it in self.ways}
        self.ways = [{**it, "since": since.get(it["by"], event if self.states else -1)} for it in ways]


@dataclass
class Spend:
    """A transaction of the chain, its place in a block (or none) from each event on, and what it makes."""

    txid: str
    said: str
    brief: str
    fee: int
    inputs: list
    states: list = field(default_factory=list)
    outputs: list = field(default_factory=list)
    # of a commitment: what it holds without an output, as names with amounts in millisatoshis, and which HTLCs are among it
    without: list = field(default_factory=list)
    trimmed: set | None = None

    @property
    def height(self):
        """The height of the last block that took it."""
        return next(height for _, height in reversed(self.states) if height is not None)


@dataclass
class Row:
    """An event as the sequence shows it. `few` is what a picture has of `more`."""

    number: int
    said: str
    more: list
    channel: int | None
    actor: str
    arrows: list
    refused: bool
    few: list


@dataclass
class Named:
    """What a transaction is called: with the outputs that it spends, where they are to be told and known, or else with `plain`."""

    said: str
    place: str
    spends: list
    plain: str = ""


class Cells:
    """Values that change from event to event: of each, the events at which it changed, and what it was from there on."""

    def __init__(self):
        self.histories = []

    def add(self, value):
        self.histories.append([(-1, value)])
        return len(self.histories) - 1

    def set(self, cell, event, value):
        history = self.histories[cell]
        if history[-1][1] == value:
            return
        if history[-1][0] == event:
            history.pop()
        history.append((event, value))

    def value_at(self, cell, event):
        return next(value for since, value in reversed(self.histories[cell]) if since <= event)


class Channel:
    """A channel as the two sides have it, and what it left on the chain."""

    def __init__(self, number, terms, cells):
        self.number, self.terms = number, terms
        self.capacity = terms["capacity"]
        start = dict(zip(SIDES, terms["start"]))
        self.newest = {side: {"number": 0, "balance": start, "feerate": terms["feerate"], "on": set(), "small": set()} for side in SIDES}
        # of each commitment its balances, its feerate, and the HTLCs that came and went with it
        self.held = {side: [(start, terms["feerate"], set(), set())] for side in SIDES}
        self.revoked = {side: -1 for side in SIDES}
        self.signed = {side: 0 for side in SIDES}
        self.closed = {side: False for side in SIDES}
        # the commitments that blocks took, and their HTLC transactions
        self.closing = []
        self.htlcs, self.hashes, self.stages, self.queue = {}, {}, {}, {side: deque() for side in SIDES}
        # HTLCs that some newest commitment has or will have, in the order in which they were offered
        self.live = {}
        self.funding = Output(terms["funding"], number, self.capacity, "funding", None, [], {}, [(-1, "unspent")])
        # who can spend each unspent output, and what they can spend together
        self.unspent = {self.funding.outpoint: "AB"}
        self.sums = {"A": 0, "B": 0, "AB": self.capacity}
        self.money = [(-1, self.shares())]
        self.cells = {name: cells.add(self.panel_line(name)) for name in ("commitments", "htlcs", "way")}

    def shares(self):
        """The owners of the money, in satoshis: A's, undecided, fees, B's. On the chain an output is undecided while both sides can spend it."""
        if self.funding.outpoint in self.unspent:
            mine, theirs = (self.newest[side]["balance"][side] for side in SIDES)
            return mine // 1000, (1000 * self.capacity - mine - theirs) // 1000, 0, theirs // 1000
        return self.sums["A"], self.sums["AB"], self.capacity - sum(self.sums.values()), self.sums["B"]

    def move(self, output, unspent):
        """An output comes or goes."""
        sides = self.unspent.pop(output.outpoint, None)
        if sides:
            self.sums[sides] -= output.value
        if unspent:
            self.unspent[output.outpoint] = output.sides
            self.sums[output.sides] += output.value

    def panel_line(self, name, whole=False):
        """A line of the panel of this channel."""
        if name == "commitments":
            return "; ".join(self.side_text(side) for side in SIDES)
        if name == "htlcs":
            return name_list(self.live, lambda key: f"{self.htlc_text(key)} {self.stages[key]}{self.output_note(key)}", self.htlcs.__getitem__, whole)
        return "; ".join(f"to {side}: {name_list(self.queue[side], whole=whole)}" for side in SIDES if self.queue[side]) or "none"

    def side_text(self, side):
        revoked = f", {self.revoked[side]} and older revoked" if self.revoked[side] > 0 else ", 0 revoked" if self.revoked[side] == 0 else ""
        signed = f" ({PEER[side]} signed {self.signed[side]}, which {side} has not received)" if self.signed[side] > self.newest[side]["number"] else ""
        closed = ", closed the channel" if self.closed[side] else ""
        return f"{side} holds {self.newest[side]['number']}{revoked}{closed}{signed}"

    def htlc_text(self, key):
        return f"{key[0]}{key[1]} {millisatoshis(self.htlcs[key])}"

    def trimmed(self, owner, feerate, keys):
        """Those of some HTLCs that have no output on a commitment of a side: the satoshis do not reach the side's dust limit and the fee of the HTLC transaction together."""
        limit = self.terms["dust"][owner == "B"]
        return {key for key in keys if self.htlcs[key] // 1000 < limit + (TIMEOUT if key[0] == owner else SUCCESS) * feerate // 1000}

    def output_note(self, key):
        """Where an HTLC has no output: in the commitment on the chain, or else in which side's newest one."""
        mined = next((it for it in self.closing if it.trimmed is not None and it.states[-1][1] is not None), None)
        if mined is not None:
            return " (no output)" if key in mined.trimmed else ""
        sides = [side for side in SIDES if key in self.newest[side]["small"]]
        return "" if not sides else " (no output)" if len(sides) == 2 else f" (no output in {sides[0]}'s commitment)"

    def changes(self, whole):
        """Which HTLCs have no output on the commitment that came last, and had one before or were not there; and which have one again."""
        told = zip(("no output there: ", "an output there again: "), self.changed)
        return [what + name_list(keys, lambda key: f"HTLC {self.htlc_text(key)}", self.htlcs.__getitem__, whole) for what, keys in told if keys]

    def content(self, owner, number):
        """The balances and the HTLCs of a commitment."""
        on = set()
        for _, _, came, gone in self.held[owner][: number + 1]:
            on = (on | came) - gone
        return self.held[owner][number][0], on


def largest(items, worth):
    """What a picture has of a list: of more than six items those that are worth most, in their order."""
    if len(items) <= WHOLE_LISTS:
        return items
    return [items[at] for at in sorted(heapq.nlargest(WHOLE_LISTS, range(len(items)), key=lambda at: worth(items[at])))]


def name_list(items, named=str, worth=None, whole=False):
    """The names of all items, or of those that a picture has (the first ones where there is no worth), and how many more there are."""
    items = list(items)
    few = items if whole else largest(items, worth) if worth else items[:WHOLE_LISTS]
    said = ", ".join(named(it) for it in few) or "none"
    return f"{said} and {len(items) - len(few):,} more" if len(items) > len(few) else said


def cut_lines(told):
    """Lines of amounts, as lists of lines with what each is worth in satoshis: all of them, and those that a picture has."""
    few = largest(told, lambda it: it[1])
    lines = [line for said, _ in few for line in said]
    if len(few) < len(told):
        shown = list(map(id, few))
        rest = [it for it in told if id(it) not in shown]
        most = satoshis(max(worth for _, worth in rest))
        lines.append(f"and {len(rest):,} more of at most {most} each")
    return [line for said, _ in told for line in said], lines


class Story:
    """The whole of a trace. `rows` has a row for each event, `cells` what stands at each moment."""

    def __init__(self, opening):
        self.cells, self.events = Cells(), opening["events"]
        self.channels = [Channel(number, terms, self.cells) for number, terms in enumerate(opening["channels"])]
        self.rows, self.end, self.heights = [], None, []
        self.outputs = {it.funding.outpoint: it.funding for it in self.channels}
        self.spends, self.names, self.claims = {}, {}, {}
        # the outpoints that a transaction spends or would spend, where they are known, and the claims that nobody took yet
        self.inputs = {}
        self.untaken = {side: deque() for side in SIDES}
        self.pool, self.jobs = {}, {side: (0, 0) for side in SIDES}
        self.kept = {side: 0 for side in SIDES}
        self.panel = {name: self.cells.add(self.panel_line(name)) for name in ("height", "pool", "jobs", "kept")}

    def stops(self):
        """Where a trace stops that does not have its end."""
        return f"The trace stops {f'after event {len(self.rows) - 1:,}' if self.rows else 'before event 0'} of {self.events:,}"

    def panel_line(self, name, whole=False):
        """A line of the panel of both sides and the chain."""
        if name == "height":
            return f"height {self.heights[-1] if self.heights else 0:,}"
        if name == "pool":
            return name_list(self.pool, lambda it: self.name(it, whole), self.worth, whole)
        if name == "jobs":
            return "; ".join(f"{side} has {quantity(jobs, 'job')} and {taken:,} taken" for side, (jobs, taken) in self.jobs.items())
        return "; ".join(f"{side} keeps penalties of {quantity(count, 'commitment')}" for side, count in self.kept.items())

    def play(self, line):
        """Reads an event."""
        number = line["event"]
        if number != len(self.rows):
            raise ValueError(f"event {number} stands where event {len(self.rows)} belongs")
        self.heights.append(line["height"])
        before = self.heights[-2] if number else 0
        # a sentence about what is removed needs the state before, and one about what is added needs the state after
        self.follow_messages(line)
        self.follow_chain(number, line)
        row = tell(self, line, before)
        self.rows.append(row)
        moved = {"left", "joined", "undone", "mined"} & line.keys()
        for name, cell in self.panel.items():
            if moved or name != "pool":
                self.cells.set(cell, number, self.panel_line(name))
        touched = {row.channel} | {it["channel"] for it in line.get("mined", [])} if "undone" not in line else set(range(len(self.channels)))
        for channel in (self.channels[it] for it in touched if it is not None and it < len(self.channels)):
            for name, cell in channel.cells.items():
                self.cells.set(cell, number, channel.panel_line(name))
            owned = channel.shares()
            if owned != channel.money[-1][1]:
                channel.money.append((number, owned))

    def follow_messages(self, line):
        """Applies what an event says about the channels, apart from the chain."""
        if "delivered" in line:
            it = line["delivered"]
            self.channels[it["channel"]].queue[it["to"]].popleft()
        if "htlc" in line:
            it = line["htlc"]
            channel, key = self.channels[it["channel"]], (it["offerer"], it["id"])
            if it["stage"] in ("offered", "received"):
                channel.htlcs[key], channel.hashes[key] = it["amount"], it["hash"]
            channel.stages[key] = it["stage"].replace("_", " ")
            channel.live[key] = True
        if "sent" in line:
            it = line["sent"]
            self.channels[it["channel"]].queue[it["to"]].append(it["message"])
        if "signed" in line:
            it = line["signed"]
            self.channels[it["channel"]].signed[it["owner"]] = it["number"]
        if "held" in line:
            self.hold(line["held"])
        if "revoked" in line:
            self.learn(line["event"], line["revoked"])
        if "closed" in line:
            it = line["closed"]
            self.channels[it["channel"]].closed[it["owner"]] = True
        if "kept" in line:
            self.kept[line["kept"]["side"]] += 1
        if "jobs" in line:
            it = line["jobs"]
            self.jobs[it["side"]] = it["jobs"], it["taken"]

    def hold(self, it):
        """A side has a new newest commitment. An HTLC that is on neither of the two is over."""
        channel = self.channels[it["channel"]]
        owner = channel.newest[it["owner"]]
        came, gone = ({(one["offerer"], one["id"]) for one in it[name]} for name in ("in", "out"))
        channel.held[it["owner"]].append((it["balance"], it["feerate"], came, gone))
        owner["number"], owner["balance"] = it["number"], it["balance"]
        owner["on"] = (owner["on"] | came) - gone
        # with another feerate other HTLCs have an output
        tried = came if it["feerate"] == owner["feerate"] else owner["on"]
        owner["feerate"], before = it["feerate"], owner["small"] - gone
        owner["small"] = (before - tried) | channel.trimmed(it["owner"], it["feerate"], tried)
        channel.changed = sorted(owner["small"] - before), sorted(before - owner["small"])
        other = channel.newest[PEER[it["owner"]]]
        for key in gone - other["on"]:
            channel.live.pop(key, None)

    def learn(self, number, it):
        """A side has the secret of a commitment of its peer's. If a block took that before, the side can spend its outputs from now on."""
        channel = self.channels[it["channel"]]
        channel.revoked[it["owner"]] = it["number"]
        for spend in channel.closing:
            for output in spend.outputs:
                output.set_ways(self.ways(output, output.ways, spend.height), number)
                channel.move(output, output.outpoint in channel.unspent)

    def ways(self, output, told, height):
        """The ways to spend an output, with that by a revocation which came after the commitment's block."""
        owner, number = output.commitment or (None, 0)
        if owner is None or number > self.channels[output.channel].revoked[owner] or "revocation" in {it["by"] for it in told}:
            return told
        return [*told, {"side": PEER[owner], "by": "revocation", "due": height}]

    def follow_chain(self, number, line):
        """Applies what an event says about pool and chain."""
        self.follow_claims(line.get("claims", []))
        for txid in line.get("left", []):
            self.pool.pop(txid, None)
        for joined in line.get("joined", []):
            self.pool[joined["txid"]] = None
            self.inputs[joined["txid"]] = joined["spends"]
            self.names.setdefault(joined["txid"], name_of(self, line["words"], joined))
            if line["words"][0] == "broadcast" and len(line["words"]) == 5:
                # what an HTLC transaction spends is an output of a commitment, which spends the funding output
                self.inputs.setdefault(joined["spends"][0].partition(":")[0], [self.channels[line["words"][2]].funding.outpoint])
        for txid in line.get("undone", []):
            self.undo(number, txid)
        for mined in line.get("mined", []):
            self.mine(number, mined)

    def follow_claims(self, claims):
        """Claims that a look gives. That of an HTLC transaction's output stands right behind that of the HTLC which it spends."""
        for before, claim in zip([None, *claims], claims):
            self.claims[claim["outpoint"]] = claim
            self.untaken[claim["side"]].append(claim)
            htlc = self.outputs.get(before["outpoint"]) if before else None
            if claim["due"] is None and htlc is not None and htlc.kind == "htlc" and htlc.channel == claim["channel"] and claim["value"] == self.second_stage_value(htlc):
                self.inputs.setdefault(claim["outpoint"].partition(":")[0], [htlc.outpoint])

    def second_stage_value(self, htlc):
        """What the HTLC transaction of an HTLC's output pays."""
        owner, number = htlc.commitment
        return htlc.value - (TIMEOUT if htlc.owner == owner else SUCCESS) * self.channels[htlc.channel].held[owner][number][1] // 1000

    def never(self, outpoint):
        """The output for whose sake another one can't come: a block has a transaction that spends it, and it is not the one which would lead to the other. None where it came, or may come."""
        output = self.outputs.get(outpoint)
        if output is not None and output.states[-1][1] != "absent":
            return None
        txid = outpoint.partition(":")[0]
        for it in self.inputs.get(txid, []):
            spent = self.outputs.get(it)
            if spent is not None and spent.states[-1][1] == "spent" and spent.spender().txid != txid:
                return spent
            found = self.never(it)
            if found is not None:
                return found
        return None

    def name(self, txid, whole=False):
        """What a transaction is called now."""
        it = self.names[txid]
        known = it.plain == "" or it.spends[0] in self.outputs
        of = f" of {spent_outputs(self, it.spends, whole)}" if it.spends and known else ""
        gone = self.never(it.spends[0]) if it.spends and not known else None
        return f"{it.said}{of}{'' if known else it.plain}{f' ({never_text(gone)})' if gone else ''}{it.place}"

    def value_of(self, outpoint):
        """An output's satoshis, where they are known."""
        return self.outputs[outpoint].value if outpoint in self.outputs else self.claims[outpoint]["value"] if outpoint in self.claims else 0

    def worth(self, txid):
        """What a transaction spends, in satoshis, as far as it is known."""
        return sum(map(self.value_of, self.inputs[txid]))

    def place(self, channel):
        """Which channel is meant, where there are several."""
        return f", ch {channel}" if len(self.channels) > 1 else ""

    def undo(self, number, txid):
        """A transaction is taken off the chain."""
        spend = self.spends[txid]
        spend.states.append((number, None))
        for output in spend.outputs:
            self.move(number, output, "absent")
        for output in spend.inputs:
            self.move(number, output, "unspent")

    def move(self, number, output, state):
        output.states.append((number, state))
        self.channels[output.channel].move(output, state == "unspent")

    def mine(self, number, mined):
        """A block takes a transaction."""
        inputs = [self.outputs[it] for it in mined["spends"]]
        self.inputs[mined["txid"]] = mined["spends"]
        spend = self.spends.get(mined["txid"]) or self.meet(mined, inputs)
        self.names[mined["txid"]] = Named(short_name(self, mined), self.place(mined["channel"]), [] if mined["kind"] == "commitment" else mined["spends"])
        spend.states.append((number, mined["height"]))
        for output, it in zip(spend.outputs, mined["outputs"]):
            output.set_ways(self.ways(output, it["ways"], mined["height"]), number)
            self.move(number, output, "unspent")
        for output in inputs:
            self.move(number, output, "spent")

    def meet(self, mined, inputs):
        """A transaction that no block took before."""
        brief = short_name(self, mined)
        said = brief if mined["kind"] == "commitment" else f"{brief} of {spent_outputs(self, mined['spends'])}"
        if mined["kind"] == "claim" and len(inputs) > 1:
            brief += f" of {len(inputs)} outputs"
        spend = Spend(mined["txid"], said, brief, mined["fee"], inputs)
        self.spends[mined["txid"]] = spend
        for output in inputs:
            output.spenders.append(spend)
        commitment = (mined["owner"], mined["number"]) if mined["kind"] == "commitment" else inputs[0].commitment
        for it in mined["outputs"]:
            output = Output(it["outpoint"], mined["channel"], it["value"], it["kind"], it["owner"], [], it)
            output.commitment = commitment if it["kind"] in REVOCABLE else None
            self.outputs[it["outpoint"]] = output
            spend.outputs.append(output)
        if mined["kind"] == "commitment":
            self.leave_out(mined, spend)
        if mined["kind"] != "claim":
            self.channels[mined["channel"]].closing.append(spend)
        return spend

    def leave_out(self, mined, spend):
        """Finds what a commitment holds and has no output for. Without any output both sides' commitments may be one transaction: then it is told where both hold the same."""
        channel, owner, number = self.channels[mined["channel"]], mined["owner"], mined["number"]
        balance, on = channel.content(owner, number)
        spend.trimmed = on - {(it["owner"], it["id"]) for it in mined["outputs"] if it["kind"] == "htlc"}
        if not mined["outputs"] and number < len(channel.held[PEER[owner]]) and channel.content(PEER[owner], number) != (balance, on):
            spend.trimmed = set()
            return
        spend.without = [(f"HTLC {channel.htlc_text(key)}", channel.htlcs[key]) for key in sorted(spend.trimmed)]
        kinds = {it["kind"] for it in mined["outputs"]}
        for side in SIDES:
            if balance[side] > 0 and ("to_local" if side == owner else "to_remote") not in kinds:
                spend.without.append((f"{side}'s {millisatoshis(balance[side])}", balance[side]))


def short_name(story, mined):
    """What a transaction of a block is, without what it spends."""
    owner = mined["owner"]
    if mined["kind"] == "commitment":
        return f"{owner}'s {'revoked ' if mined.get('revoked') else ''}commitment {mined['number']}"
    if mined["kind"] == "htlc":
        offered = story.outputs[mined["spends"][0]].owner == owner
        return f"{owner}'s HTLC-{'timeout' if offered else 'success'} transaction"
    return f"{owner}'s claim"


def name_of(story, event, joined):
    """The name of a transaction that joins the pool by an event."""
    if event[0] == "broadcast" and len(event) == 4:
        return Named(f"{event[1]}'s commitment {event[3]}", story.place(event[2]), [])
    if event[0] == "broadcast":
        return Named(f"{event[1]}'s HTLC transaction", story.place(event[2]), joined["spends"], f" {event[4]} of commitment {event[3]}")
    if event[0] == "close":
        return Named(f"{event[1]}'s commitment {story.channels[event[2]].newest[event[1]]['number']}", story.place(event[2]), [])
    if event[0] == "release":
        return Named(f"{event[1]}'s claim", "", joined["spends"])
    return Named("a transaction", "", [])


def spent_outputs(story, outpoints, whole=False):
    """The outputs that a transaction spends."""
    found = [it for it in outpoints if it in story.outputs or it in story.claims]
    return name_list(found, lambda it: spent_output(story, it), story.value_of, whole) if found else quantity(len(outpoints), "output")


def spent_output(story, outpoint):
    if outpoint in story.outputs:
        return f"{satoshis(story.outputs[outpoint].value)} ({kind_of(story.outputs[outpoint])})"
    gone = story.never(outpoint)
    return f"{satoshis(story.claims[outpoint]['value'])} ({never_text(gone) if gone else 'not on chain yet'})"


def never_text(spent):
    """Why an output can't come any more."""
    return "never: another commitment was mined" if spent.kind == "funding" else f"never: {kind_of(spent)} is spent otherwise"


def kind_of(output):
    if output.kind == "htlc":
        return f"HTLC {output.owner}{output.more['id']}"
    return output.kind.replace("second_stage", "second stage")


def tell(story, line, before):
    """An event as a row."""
    event = line["words"]
    name, side = event[0], event[1] if isinstance(event[1], str) else "chain"
    channel = event[2] if name in ("offer", "fulfil", "fail", "fee", "sign", "deliver", "keep", "broadcast", "close") else None
    answer = line["answer"]
    if answer.startswith("refused"):
        said, more = wish(story, event)
        if channel is not None and channel >= len(story.channels) == 1:
            said = f"{said} (channel {channel})"
        more.append(refusal_words(answer, name))
        return Row(line["event"], said, more, channel, side, [], True, more)
    said, more, arrows, *few = TELL[name](story, line, event, before)
    return Row(line["event"], said, more, channel, side, arrows, False, *few or [more])


def wish(story, event):
    """What a refused event wanted, and more of it."""
    name, side = event[0], event[1]
    if name == "blocks":
        return f"{quantity(side, 'block')} to be made", []
    if name == "reorg":
        return f"{quantity(side, 'block')} to be taken off, {quantity(event[2], 'transaction')} to be forgotten", []
    more = []
    if name == "offer":
        what, more = f"offer an HTLC of {millisatoshis(event[3])}", [terms_text(event[5], event[4].lower())]
    elif name == "fulfil":
        what, more = f"fulfil HTLC {PEER[side]}{event[3]}", [f"preimage {event[4].lower()}"]
    elif name == "deliver":
        waiting = story.channels[event[2]].queue[side] if event[2] < len(story.channels) else []
        what = f"receive {waiting[0] if waiting else 'a message'}"
    elif name == "broadcast":
        what = f"broadcast its commitment {event[3]}" if len(event) == 4 else f"broadcast HTLC transaction {event[4]} of commitment {event[3]}"
    elif name == "fail":
        what = f"give back HTLC {PEER[side]}{event[3]}"
    elif name == "fee":
        what = f"change the feerate to {event[3]:,}"
    elif name == "sign":
        what = f"sign {PEER[side]}'s next commitment"
    elif name == "keep":
        what = f"keep penalties of {PEER[side]}'s commitment {event[3]}"
    elif name == "take":
        what = f"take {quantity(event[2], 'job')}"
    elif name == "release":
        what = f"release {quantity(event[2], 'claim')}"
    else:
        what = {"close": "close the channel", "look": "look"}[name]
    return f"{side} wants to {what}", more


def terms_text(expiry, digest):
    return f"until height {expiry:,}, hash {digest}"


def tell_offer(story, line, event, before):
    it = line["htlc"]
    return f"{event[1]} offers HTLC {event[1]}{it['id']}: {millisatoshis(it['amount'])}", [terms_text(it["expiry"], it["hash"])], [("sends", event[1])]


def tell_fulfil(story, line, event, before):
    return f"{event[1]} fulfils HTLC {PEER[event[1]]}{event[3]}", [f"preimage {line['htlc']['preimage']}"], [("sends", event[1])]


def tell_fail(story, line, event, before):
    return f"{event[1]} gives back HTLC {PEER[event[1]]}{event[3]}", [], [("sends", event[1])]


def tell_fee(story, line, event, before):
    return f"{event[1]} changes the feerate to {event[3]:,}", [], [("sends", event[1])]


def tell_sign(story, line, event, before):
    number = line["signed"]["number"]
    return f"{event[1]} signs {PEER[event[1]]}'s commitment {number}", [], [("sends", event[1])]


def tell_deliver(story, line, event, before):
    side, message = event[1], line["delivered"]["message"]
    arrows = [("receives", side)]
    htlc = f"HTLC {line['htlc']['offerer']}{line['htlc']['id']}" if "htlc" in line else "an HTLC"
    if message == "commitment_signed":
        held = line["held"]["number"]
        channel = story.channels[event[2]]
        return f"{side} holds commitment {held}, revokes {held - 1}", channel.changes(True), [*arrows, ("sends", side)], channel.changes(False)
    said = {
        "update_add_htlc": f"{side} receives {htlc}",
        "update_fulfill_htlc": f"{side} receives the preimage of {htlc}",
        "update_fail_htlc": f"{side} gets {htlc} back",
        "update_fee": f"{side} receives the feerate",
    }
    if message == "revoke_and_ack":
        return f"{side} has the secret of {PEER[side]}'s commitment {line['revoked']['number']}", [], arrows
    return said.get(message, f"{side} receives {message}"), [], arrows


def tell_keep(story, line, event, before):
    return f"{event[1]} keeps penalties of {PEER[event[1]]}'s commitment {event[3]}", [], [("keeps", event[1])]


def tell_broadcast(story, line, event, before):
    side, number = event[1], event[3]
    revoked = "revoked " if number <= story.channels[event[2]].revoked[side] else ""
    if len(event) == 4:
        return f"{side} broadcasts its {revoked}commitment {number}", [], [("to chain", side)]
    spends = [it for tx in line.get("joined", []) for it in tx["spends"] if it in story.outputs]
    of = [f"of {spent_outputs(story, spends)}"] if spends else []
    return f"{side} broadcasts HTLC transaction {event[4]} of commitment {number}", of, [("to chain", side)]


def tell_close(story, line, event, before):
    number = line["closed"]["number"]
    return f"{event[1]} closes the channel: broadcasts its commitment {number}", [], [("to chain", event[1])]


def tell_blocks(story, line, event, before):
    after = line["height"]
    said = "no block" if after == before else f"block {after:,}" if after == before + 1 else f"blocks {before + 1:,} to {after:,}"
    more, few = mined_lines(story, line)
    return said, more, [("block", "chain")], few


def mined_lines(story, line):
    """The transactions in new blocks, a line each with the fee, and one more for what has no output: all of them, and those that a picture has."""
    mined = line.get("mined", [])
    several = len({it["height"] for it in mined}) > 1 or line["words"][1] != 1
    told = [[], []]
    for it in mined:
        begin, spend = f"block {it['height']:,} takes" if several else "takes", story.spends[it["txid"]]
        fee = f", fee {satoshis(it['fee'])}" if it["fee"] else ""
        for whole, lines in zip((True, False), told):
            without = [f"no output for {name_list(spend.without, lambda one: one[0], lambda one: one[1], whole)}"] if spend.without else []
            lines.append(([f"{begin} {story.name(it['txid'], whole)}{fee}", *without], story.worth(it["txid"])))
    return cut_lines(told[0])[0], cut_lines(told[1])[1]


def tell_reorg(story, line, event, before):
    more, few = mined_lines(story, line)
    return f"{quantity(event[1], 'block')} taken off, {event[1] + 1:,} made: height {line['height']:,}", more, [("block", "chain")], few


def tell_look(story, line, event, before):
    claims = line.get("claims", [])
    several = len(story.channels) > 1
    # what is spent, or can't come any more, stands last
    told = sorted((is_gone(story, it), -it["value"], number) for number, it in enumerate(claims))
    ordered = [(claims[number], gone) for gone, _, number in told]
    lines = [f"{'ch ' + str(it['channel']) + ': ' if several else ''}{satoshis(it['value'])} by {it['by']}{due_time(story, it)}" for it, _ in ordered]
    few, rest = lines[:WHOLE_LISTS], ordered[WHOLE_LISTS:]
    if rest:
        left = [it["value"] for it, gone in rest if not gone]
        few += [f"and {len(left):,} more of at most {satoshis(max(left))} each"] if left else []
        few += [f"and {len(rest) - len(left):,} more, spent or never to come"] if len(left) < len(rest) else []
    return f"{event[1]} looks: {quantity(len(claims), 'claim')}", lines, [("from chain", event[1])], few


def is_gone(story, claim):
    """Whether a claim's output is spent, or can't come any more."""
    output = story.outputs.get(claim["outpoint"])
    return output is not None and output.states[-1][1] == "spent" or story.never(claim["outpoint"]) is not None


def due_time(story, claim):
    """When a claim can be taken. A spent output keeps its `due`."""
    if claim["due"] is None:
        gone = story.never(claim["outpoint"])
        return f", {never_text(gone) if gone else 'not on chain yet'}"
    return f", due in block {claim['due']:,}{', already spent' if is_gone(story, claim) else ''}"


def tell_take(story, line, event, before):
    untaken = story.untaken[event[1]]
    taken = [untaken.popleft()["outpoint"] for _ in range(event[2])]
    # where some are left it is told which ones
    of = [[f"of {spent_outputs(story, taken, whole)}"] if untaken else [] for whole in (True, False)]
    return f"{event[1]} takes {quantity(event[2], 'job')}", of[0], [("keeps", event[1])], of[1]


def tell_release(story, line, event, before):
    joined = line.get("joined", [])
    of = [[f"of {spent_outputs(story, joined[0]['spends'], whole)}"] if joined else [] for whole in (True, False)]
    return f"{event[1]} releases {quantity(event[2], 'claim')}", of[0], [("to chain", event[1])], of[1]


TELL = {
    "offer": tell_offer, "fulfil": tell_fulfil, "fail": tell_fail, "fee": tell_fee, "sign": tell_sign, "deliver": tell_deliver, "keep": tell_keep,
    "broadcast": tell_broadcast, "close": tell_close, "blocks": tell_blocks, "look": tell_look, "take": tell_take, "release": tell_release, "reorg": tell_reorg,
}


def read(lines):
    """The story of a trace's lines."""
    story = None
    for line in lines:
        if "opening" in line:
            story = Story(line["opening"])
        elif "event" in line:
            story.play(line)
        elif "end" in line:
            story.end = line["end"]
    return story
