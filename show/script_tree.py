"""The picture of a script: its opcodes, indented by branch, and the tree of its paths with each path's conditions."""
from drawing import element, figure, fitted_text, lines, markup, short_text, tooltip, words

LINE = 18
SMALL = 12
SIZE = 13
STEP = 22
CHIP = 34


def opcodes(script, wide):
    """The opcodes, one a line: the byte at which it begins, and its name, indented by branch, with a bracket for each branch."""
    parts, y = [], 0
    deepest = max((it["depth"] for it in script["opcodes"]), default=0)
    step = min(14, (wide - 200) // 2 // max(deepest, 1))
    for op in script["opcodes"]:
        left = 46 + step * op["depth"]
        rails = [element("path", d=f"M{46 + step * n + 4} {y}v{LINE}", class_="rail") for n in range(op["depth"])]
        said, full = opcode_texts(op)
        name = element("tspan", markup(op["op"]), class_=None if said else "strong")
        more = element("tspan", " " + markup(fitted_text(said, wide - left - 8 * len(op["op"]) - 10, SMALL, mono=True)), class_="soft")
        line = element("text", name, more if said else "", x=left, y=y + 13, class_="mono")
        parts.append(element("g", tooltip(full), *rails, words(36, y + 13, op["byte"], "mono soft end"), line, role="listitem"))
        y += LINE
    if "refused" in script:
        for line in lines(refusal(script), wide - 46, SIZE):
            parts.append(words(46, y + 14, line, "strong"))
            y += LINE
    description = "One opcode a line, from top to bottom: the byte at which it begins, and its name, indented by branch."
    return figure(parts, wide, y + 6, f"The opcodes of {size_of(script)}", description, role="list")


def opcode_texts(op):
    """What a line shows after an opcode's name, and the whole of it."""
    if "hex" not in op:
        return "", f"byte {op['byte']}: {op['op']}"
    looks = f"number {op['number']}" if op["looks"] == "number" else op["looks"]
    item = op["hex"] or "-"
    return f"{short_text(item)} ({looks})", f"byte {op['byte']}: PUSH {item} ({looks})"


def size_of(script):
    return "a text that is no script" if script["bytes"] is None else f"a script of {quantity(script['bytes'], 'byte')}"


def refusal(script):
    said, byte = script["refused"], script["byte"]
    if byte is None:
        return f"refused: {said}"
    # some refusals have the byte after their name
    return f"refused: {said.removesuffix(f' {byte}')} at byte {byte}"


def fact_subject(fact):
    """What a fact asks about, whether it has to hold or not."""
    return fact["kind"], tuple(fact["slots"]), tuple(map(str, fact["keys"])), fact["value"]


def tree(paths):
    """The tree of paths: the facts that all of them share, and then the branches, each a tree. A single path has no branches."""
    shared = []
    if len(paths) > 1:
        for facts in zip(*(facts for _, facts in paths)):
            if len({(fact_subject(it), it["holds"]) for it in facts}) > 1:
                break
            shared.append(facts[0])
    rest = [(path, facts[len(shared) :]) for path, facts in paths]
    if len(rest) == 1:
        return {"shared": [], "path": rest[0][0], "branches": []}
    branches = {}
    for path, facts in rest:
        branches.setdefault((fact_subject(facts[0]), facts[0]["holds"]) if facts else None, []).append((path, facts))
    if len(branches) == 1:
        return {"shared": shared, "path": None, "branches": [{"shared": [], "path": path, "branches": [], "by": None} for path, _ in rest]}
    found = []
    for way in branches.values():
        by = way[0][1][0] if way[0][1] else None
        found.append({**tree([(path, facts[1:]) for path, facts in way]), "by": by})
    return {"shared": shared, "path": None, "branches": found}


def depth(node):
    """The depth of nested branches."""
    return 1 + max(map(depth, node["branches"])) if node["branches"] else 0


class Paper:
    """The part of a tree of paths that is drawn so far, from top to bottom."""

    def __init__(self, script, wide, deepest):
        self.script, self.wide = script, wide
        self.step = max(4, min(STEP, (wide - 180) // max(deepest, 1)))
        self.parts, self.y = [], 4

    def text(self, x, line, kind="", size=SIZE):
        """Lines of text, one under another."""
        for row in lines(line, self.wide - x - 4, size, bold="strong" in kind):
            self.parts.append(words(x, self.y + 14, row, kind))
            self.y += LINE

    def branches(self, node, left, shift):
        """Draws the question at which a node's paths part, what they share, and each way on."""
        top = self.y
        self.parts.append(element("path", d=f"M{left + shift + 5} {top + 4}l5 5l-5 5l-5 -5z", class_="fork"))
        self.text(left + shift + 16, question(node["branches"]), "strong")
        for fact in node["shared"]:
            self.text(left + shift + 16, "first: " + short_text(fact["says"]), "small soft", SMALL)
        rail = len(self.parts)
        for branch in node["branches"]:
            self.y += 6
            last = self.y + 9
            self.branch(branch, left)
        self.parts.insert(rail, element("path", d=f"M{left + 5} {top + 20}V{last}", class_="rail"))

    def branch(self, node, left):
        """Draws one way on: yes or no, and its path or the branches in it."""
        inner = left + self.step
        self.parts.append(element("path", d=f"M{left + 5} {self.y + 9}H{inner}", class_="rail"))
        shift, by = 0, node["by"]
        if by:
            yes = "yes" if by["holds"] else "no"
            shift = CHIP + 8
            chip = element("rect", x=inner, y=self.y, width=CHIP, height=18, rx=9, class_=f"chip {yes}")
            self.parts.append(
                element("g", tooltip(by["says"]), chip, words(inner + CHIP // 2, self.y + 13, yes, f"small middle strong {'on' if by['holds'] else ''}".strip()))
            )
        if node["path"] is not None:
            self.y += 22 if by else 0
            self.card(node["path"], inner)
        else:
            self.branches(node, inner, shift)

    def card(self, number, left):
        """Draws a path: who can spend, with what, and when."""
        path = self.script["paths"][number]
        top, parts, self.parts = self.y, self.parts, []
        self.y += 6
        self.text(left + 10, f"Path {number}", "strong")
        self.text(left + 10, f"{quantity(path['arity'], 'item')}, {path['weight']} weight units ({path['token_weight']} with tokens)", "small soft", SMALL)
        for role, said in conditions(path):
            self.parts.append(words(left + 10, self.y + 14, role, "small strong"))
            self.text(left + 52, short_text(said), "small", SMALL)
        self.y += 6
        inside, self.parts = self.parts, parts
        box = element("rect", x=left + 0.5, y=top + 0.5, width=self.wide - left - 2, height=self.y - top - 1, rx=6, class_="card")
        self.parts.append(element("g", tooltip(path_text(number, path)), box, *inside, role="listitem"))
        self.y += 6


def question(branches):
    """What decides which way is taken."""
    asked = [it["by"] for it in branches]
    if all(asked) and len({fact_subject(it) for it in asked}) == 1:
        says = next((it["says"] for it in asked if it["holds"]), asked[0]["says"])
        return short_text(says[:1].upper() + says[1:]) + "?"
    return "One of these ways"


def conditions(path):
    """Who can spend, with what and when: a role and a sentence each, as `trace script --text` has them."""
    facts = path["facts"]
    told_who = [("who", it["says"]) for it in facts if it["role"] == "who"] or [("who", "anyone")]
    told_when = [("when", it["says"]) for it in facts if it["role"] == "when"] or [("when", "at once")]
    return [*told_who, *(("with", it["says"]) for it in facts if it["role"] == "with"), *told_when]


def path_text(number, path):
    return f"Path {number}. " + " ".join(f"{role}: {said}." for role, said in conditions(path))


def quantity(count, what):
    return f"{count} {what}" if count == 1 else f"{count} {what}s"


def paths(script, wide):
    """The tree of a script's paths."""
    listed = script["paths"]
    whole = tree([(number, path["facts"]) for number, path in enumerate(listed)]) if listed else None
    paper = Paper(script, wide, depth(whole) if whole else 0)
    heading = f"{quantity(len(listed), 'way')} to spend an output to this script, by the rules here" if listed else "No listed way to spend an output to this script"
    paper.text(0, heading, "strong big", 15)
    paper.y += 6
    if whole and whole["path"] is not None:
        paper.card(whole["path"], 0)
    elif whole:
        paper.branches(whole, 0, 0)
    title = f"The {quantity(len(listed), 'path')} of a script"
    description = "A tree from top to bottom: each fork asks a question, each way on is a yes or a no, and each leaf is a path with its conditions."
    return figure(paper.parts, wide, paper.y + 4, title, description, role="list")
