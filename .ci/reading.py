#!/usr/bin/env python3
"""What has to be read to know what a contract says.

  .ci/reading.py WORD             WORD is a public function or law, as world::World::play or world::laws::claims_spend,
                                  or a word of the definitions, as Rattle.world.specs.Theorem.HoldsAt
  .ci/reading.py --beyond WORD.. WORD   the list of the last word, without what stands in the lists of the words before it
  .ci/reading.py --facts WORD..   which facts show, of each relation of these words' lists, where it holds and where it does not; crate::module::* is each function there

It walks from word to word. It begins with the word itself, of a function with its clauses (requires and ensures)
and the types of its signature. Of each definition it takes every word that the definition cites, and so on. It
prints a line for each file: the lines of the definitions that are needed, the file, their names. Then the sum.

Order. A file stands before those that it cites: users first, so a reader knows what a definition is for before
he reads it. Where several may come next, the first that is cited stands first. Read backwards, the list goes from
the ground up. The names of a line stand as in their file. Equal sources give equal text.

Lines. A definition is the comment lines directly above it, its signature and its equations; a record or a type is
all its fields or constructors, with the comments between them. Empty lines, imports, attributes and the comment at
the head of a file count nothing. A line of more than 100 columns counts as the lines of 100 columns that it fills.

What counts:
- A word counts where the text of a needed definition has it, outside comments, and no variable or field has the
  same name there. A word that is only imported does not count.
- A constructor counts as its whole type. A field comes with its record or struct, which some type there names.
- A Rust type is its struct or enum, with the types of its fields and what its ghost fields promise. A Rust
  constant is its line. Both stand in a src/ folder and are summed up apart.
- A Rust type with a Model is read as the value that the Model names ('ghost Value'), where a signature or a field
  has the type. Neither its struct nor the Model's view and invariant count.
- Words of the kit (its standard library and its ported crates) are named at the end. Neither they nor what they
  cite count.
- Bodies and proofs count nothing, nor do the contracts of other functions.

Facts. A relation is a definition of the list that gives a statement of its arguments. For each of them there must be a fact on either side of its bound: one that has it, and one that has none of it.
A fact stands in a file of proofs/, below the line '-- yes: NAME' or '-- no: NAME' (or several names, with commas). Its type has to cite the relation of this name, and a 'no' ends in ⊥ or false. Where
nothing can be refuted, a line '-- no: NAME: why' says so. Of a relation of APPLIED each field is applied, below '-- yes: NAME.FIELD': the type cites NAME, and what is below it cites the field. A fact
in a file that others stand on may be named from elsewhere, by the line '-- yes: NAME, by FILE: FACT'. Status 1 where a fact is missing, or is none.

A fact is of nothing where a premise says that something is None, but for a refusal that is None. It is so too where a premise says that something is [], or where the relation is given [], None or an Err, if
the fact's type names no element of a list, no Some and no Ok. Premises are those of the type and of the modules round it. Such a fact is printed with '(of nothing)'. A relation whose facts are all of nothing is
shown only where nothing is there: status 1, unless a line '-- nothing: NAME: why' says why that is enough. All this is read off the text: what an abbreviation or a number stands for is not seen.
"""
import functools
import glob
import os
import re
import signal
import sys

TOP = os.path.dirname(os.path.dirname(os.path.abspath(__file__)))
COLUMNS = 100
WORD = re.compile(r"[A-Za-z_][A-Za-z0-9_'?]*")
CHAIN = re.compile(r"(?<![A-Za-z0-9_'?.])[A-Za-z_][A-Za-z0-9_'?]*(?:\.[A-Za-z_][A-Za-z0-9_'?]*)*")
HEAD = re.compile(r"(?:abbrev|unfoldable|record|data|pub)\b(?!\s+mod\b)")
IMPORT = re.compile(r"(?:ghost\s+)?use\s+([A-Za-z0-9_.]+?)(?:\.\{([^}]*)\}|\s+as\s+(\w+));?\s*$", re.M)
MARK = re.compile(r"^ *-- (yes|no|nothing): ([^:\n]*)(?:: (.*))?$")
MODULE = re.compile(r"( *)module _ (.*?) where$", re.M | re.S)
# a premise that something is not there, one that something is empty, what shows something, and an argument that is nothing
LACKS = re.compile(r"≡ None\)*\s*$")
EMPTY = re.compile(r"≡ \[\]\)*\s*$")
SHOWS = re.compile(r"∷|\b(?:Some|Ok)\b")
NOTHING = re.compile(r"(?:\[\]|None|\(Err .*\))$", re.S)
OF_NOTHING = " (of nothing)"
# The relations that say what holds at each moment: each of their fields is applied.
APPLIED = ("HoldsAt", "IsPlay", "IsReport")
GHOST_FIELD = re.compile(r"ghost \w+: (\{.*?\})(?=,?\n)", re.S)
ITEM = re.compile(r"^(?:pub(?:\([a-z]+\))? )?(struct|enum|const|type|trait) (\w+)", re.M)


@functools.cache
def text_of(file):
    with open(os.path.join(TOP, file), encoding="utf-8") as it:
        return it.read()


def imports_of(text):
    """For each imported name its path, which ends with the word; and the paths of names for whole modules."""
    words, modules = {}, {}
    for path, names, alias in IMPORT.findall(text):
        if alias:
            modules[alias] = path
        for name in filter(None, map(str.strip, (names or "").split(","))):
            first, _, other = name.partition(" as ")
            words[other or first] = (path, first)
    return words, modules


def lines_in(lines):
    """The number of lines, a longer one counted in lines of 100 columns."""
    return sum(-(-len(line.rstrip()) // COLUMNS) for line in lines if line.strip() and not line.lstrip().startswith("#["))


def bare_text(text):
    return re.sub(r"--.*", "", text)


class Definition:
    """A definition of a file of definitions, and the parameters of the module that it stands in."""

    def __init__(self, name, kind, above, lines, module):
        self.name, self.kind, self.module = name, kind, module
        self.lines = lines_in(above + lines)
        self.text = bare_text("\n".join(lines))
        self.comments = self.lines - lines_in(self.text.split("\n"))

    def is_relation(self):
        """Whether it gives a statement of its arguments. A record or an abbreviation over types alone is a type of values."""
        head = re.split(r"\bwhere\b", equations(self)[0])[0].strip()
        if self.kind not in ("record", "data", "abbrev", "unfoldable") or not re.search(r"\bType 0$", head):
            return False
        arguments = re.sub(r"\bType 0$", "", head.split(self.name, 1)[1]).strip(" :\n")
        own = re.sub(r"[({][^(){}]*: Type 0[)}]|\bType 0\b|→", " ", arguments).strip()
        return bool(own) or (self.kind == "data" and bool(arguments))

    def fields(self):
        """The fields of a record."""
        return re.findall(r"^ +pub (\w+) :", self.text, re.M) if self.kind == "record" else []

    def constructors(self):
        """The constructors of data."""
        return re.findall(r"^ +(?:pub )?([\w?']+) :", self.text, re.M) if self.kind == "data" else []


@functools.cache
def definitions(file):
    """The definitions of a file, by name, in order."""
    lines, modules, found, at = text_of(file).split("\n"), [], {}, 0
    for n, line in enumerate(lines):
        module = re.match(r"module _ (.*) where$", line)
        outer = line and not line.startswith(" ")
        modules.append(module[1] if module else "" if outer or not modules else modules[-1])
        if modules[-1] and not module:
            lines[n] = line[2:]
    while at < len(lines):
        if not HEAD.match(lines[at]):
            at += 1
            continue
        top, end = at, at + 1
        kind, name = re.match(r"(?:pub )?(\w+)(?: pub)? (\S+)", lines[at]).groups()
        while top and (lines[top - 1].startswith("--") or lines[top - 1].startswith("infix")):
            top -= 1
        begins = re.compile(re.escape(name) + r"(?![\w'?])")

        def goes_on(line):
            # an equation of an operator begins with its first operand
            return line.startswith((" ", "}", ")")) or begins.match(line) or (name.startswith("◌") and line and not line.startswith("--") and not HEAD.match(line))

        while end < len(lines):
            after = end
            while after < len(lines) and lines[after].startswith("--"):
                after += 1
            if after == len(lines) or not goes_on(lines[after]):
                break
            end = after + 1
        found[name] = Definition(name, kind, lines[top:at], lines[at:end], modules[at])
        at = end
    return found


def equations(definition):
    """The definition's signature and its equations, each on its own."""
    parts = []
    for line in definition.text.split("\n"):
        if line[:1] not in (" ", "", "}", ")") or not parts:
            parts.append(line)
        else:
            parts[-1] += "\n" + line
    return parts


def variables(part, name, is_constructor):
    """The names that a part of a definition gives to variables and fields."""
    found = set()
    for names in re.findall(r"λ ([^.]*)\.", part):
        found |= set(WORD.findall(names))
    found |= set(re.findall(r"\blet (\w+)[^=\n]* =", part))
    for names in re.findall(r"[({]([\w' ]+) :", part):
        found |= set(names.split())
    found |= set(re.findall(r"^ +pub (\w+) :", part, re.M))
    if name and part.startswith(name) and not re.match(re.escape(name) + r"\s*:", part):
        left = re.split(r"\s=(?=\s|$)", part, maxsplit=1)[0]
        found |= {it for it in CHAIN.findall(left[len(name):]) if "." not in it and not is_constructor(it)}
    return found


class Walk:
    def __init__(self):
        self.seen, self.cites, self.kit = {}, {}, {}

    # ---- where a path leads

    def of_path(self, path, word):
        """The definition that a path with a word names: (file, name), None for the kit."""
        steps = path.split(".")
        if steps[0] != "Rattle" or len(steps) < 3 or not os.path.isdir(f"{TOP}/crates/{steps[1]}"):
            self.kit.setdefault(steps[1] if steps[0] == "Rattle" and len(steps) > 1 else steps[0], set()).add(word)
            return None
        crate, folder, steps = steps[1], steps[2], steps[3:]
        if steps[:1] == ["declared"]:
            steps = [it for it in steps[1:] if it not in ("TheVariants", "TheConstants")]
            kinds = [it for it in steps if it[0].isupper()]
            at = of_item(crate, kinds[-1] if kinds else word, "/".join(it for it in steps if it[0].islower()))
            if at is None:
                raise SystemExit(f"reading: there is no Rust item {path}.{word}")
            return at
        for n in range(len(steps), 0, -1):
            file = f"crates/{crate}/{folder}/{'/'.join(steps[:n])}.antt"
            if os.path.isfile(os.path.join(TOP, file)):
                return self.in_file(file, steps[n] if n < len(steps) else word)
        raise SystemExit(f"reading: there is no file of {path}")

    @staticmethod
    def in_file(file, word):
        """The definition of a file that has the word: itself, or the data that has it as a constructor."""
        known = definitions(file)
        if word in known:
            return file, word
        return next(((file, it.name) for it in known.values() if word in it.constructors()), None)

    def imported_definition(self, path, word):
        """The same for an imported word, which must be there."""
        at = self.of_path(path, word)
        if at is None and path.split(".")[0] == "Rattle" and os.path.isdir(f"{TOP}/crates/{path.split('.')[1]}"):
            raise SystemExit(f"reading: there is no definition {path}.{word}")
        return at

    # ---- what a definition cites

    def words_in(self, text, scope, hidden):
        """The definitions that a text cites, in order."""
        words, modules, own = scope
        symbols = {it.strip("◌"): it for it in (*words, *(definitions(own) if own.endswith(".antt") else ())) if it.startswith("◌")}
        places = [(it.start(), it[0]) for it in CHAIN.finditer(text)]
        for symbol, name in symbols.items():
            places += [(it.start(), name) for it in re.finditer(r"(?<=\s)" + re.escape(symbol) + r"(?=\s)", text)]
        found = []
        for at, chain in sorted(places):
            first, _, rest = chain.partition(".")
            if rest and first in modules:
                found.append(self.imported_definition(modules[first], rest.split(".")[0]))
            elif re.match(r"\s=\s", text[at + len(chain) :]) and re.search(r"[{;]\s*$", text[:at]):
                continue
            elif first in hidden:
                continue
            elif first in words:
                found.append(self.imported_definition(*words[first]))
            elif own.endswith(".antt"):
                found.append(self.in_file(own, first))
        return [it for it in found if it]

    def of_definition(self, file, name):
        definition, scope = definitions(file)[name], (*imports_of(text_of(file)), file)

        def is_constructor(it):
            if it in scope[0]:
                path, word = scope[0][it]
                at = self.of_path(path, word)
                return at is None or at[1] != word
            return any(it in other.constructors() for other in definitions(file).values())

        parameters = variables(definition.module, "", is_constructor)
        found = self.words_in(definition.module, scope, parameters)
        for part in equations(definition):
            found += self.words_in(part, scope, variables(part, name, is_constructor) | parameters)
        return definition.lines, found

    def of_rust(self, file, name):
        kind, text, lines = item_text(file, name)
        text = re.sub(r"//.*", "", text)
        fields = set(re.findall(r"^\s*(?:pub(?:\([a-z]+\))? )?(\w+):", text, re.M))
        found = []
        for clause in GHOST_FIELD.findall(text):
            found += self.words_in(clause, (*imports_of(text_of(file)), file), fields)
        if kind == "const":
            text = text.partition("=")[0]
        return lines, found + self.types_in(GHOST_FIELD.sub("", text), file, name)

    def types_in(self, text, file, but=None):
        """What the Rust types in a text are read as."""
        found = []
        uses = rust_uses(file)
        for name in re.findall(r"(?<![\w'])[A-Z]\w*", re.sub(r"^\s*[A-Z]\w*(?=[,({]| \{)", "", text, flags=re.M)):
            crate = uses.get(name, file.split("/")[1])
            if name == but or crate is None:
                continue
            at = of_item(crate, name)
            if at is None:
                continue
            value = model_of(crate, name)
            if value is None:
                found.append(at)
            else:
                model, uses_there, where = value
                found += self.words_in(model, (*uses_there, where), set())
        return found

    def of_function(self, file, name, kind):
        clauses, signature, ghost = clauses_of(file, name, kind)
        found = []
        for clause in clauses:
            hidden = set(re.findall(r"(\w+)\s*:", signature)) | variables(clause, "", lambda it: False)
            found += self.words_in(clause, (*imports_of(ghost), file), hidden)
        found += self.types_in(signature, file)
        return sum(lines_in(it.split("\n")) for it in clauses), found

    # ---- the walk

    def go(self, root, first):
        waiting = [(root, first)]
        while waiting:
            at, look = waiting.pop()
            if at in self.seen:
                continue
            self.seen[at], found = look()
            self.cites[at] = found
            for it in found:
                if it not in self.seen:
                    waiting.append((it, functools.partial(self.of_rust if it[0].endswith(".rt") else self.of_definition, *it)))

    def in_order(self, file):
        """The definitions of a file that are needed, in its order."""
        names = list(definitions(file)) if file.endswith(".antt") else [it[2] for it in ITEM.finditer(text_of(file))]
        rank = {name: n for n, name in enumerate(names)}
        return sorted((it for it in self.seen if it[0] == file), key=lambda it: (rank.get(it[1], -1), it[1]))

    def files(self, root):
        """The files, each before those that it cites: the reverse postorder of a depth-first search."""
        done, left = set(), []

        def visit(file):
            done.add(file)
            cited = dict.fromkeys(to[0] for it in self.in_order(file) for to in self.cites[it])
            for to in reversed(cited):
                if to not in done:
                    visit(to)
            left.append(file)

        visit(root[0])
        return left[::-1]


# ---- facts


class Fact:
    """What stands below a mark in a file of proofs: its name, its type and its text."""

    def __init__(self, file, at):
        lines = text_of(file).split("\n")
        while at < len(lines) and lines[at].lstrip().startswith("--"):
            at += 1
        head = re.match(r"( *)(?:abbrev |unfoldable )?(?:pub )?(?:abbrev )?(\S+) :(?= |$)", lines[at] if at < len(lines) else "")
        self.name, self.type, self.text, self.given = head and head[2], "", "", ""
        if head is None:
            return
        indent = len(head[1])
        for n in range(at - 1, -1, -1):
            if lines[n].strip() and len(lines[n]) - len(lines[n].lstrip()) < indent and not lines[n].lstrip().startswith("--"):
                module = MODULE.match("\n".join(lines[n:at]))
                if module is None:
                    break
                indent, self.given = len(module[1]), f"{bare_text(module[2])} {self.given}"
        end = at + 1
        while end < len(lines) and (not lines[end].strip() or lines[end].startswith((head[1] + " ", head[1] + head[2] + " ", head[1] + "unfolding "))) and not lines[end].lstrip().startswith("--"):
            end += 1
        self.text = bare_text("\n".join(lines[at:end]))
        self.type = re.split(rf"^{head[1]}(?:unfolding|{re.escape(head[2])}) (?!:)", self.text[head.end() :], flags=re.M)[0].strip()

    def is_of_nothing(self, name):
        """Whether it shows the relation of this name only where nothing is there."""
        whole = f"{self.given}→{self.type}"
        premises = re.split(r"→|\) \(", whole)
        if any(LACKS.search(it) and "refusal" not in it for it in premises):
            return True
        cited = [arguments(self.type, it.end()) for it in re.finditer(rf"(?<![\w.'?])(?:\w+\.)?{re.escape(name)}(?![\w.'?])", self.type)]
        return not SHOWS.search(whole) and (any(EMPTY.search(it) for it in premises) or any(NOTHING.match(it) for given in cited for it in given))


def arguments(text, at):
    """What a word is applied to that ends there: words, and what brackets hold."""
    found = []
    while it := re.compile(r"\s*(\[\]|[^\s(){}\[\];,→≡≢×⊎∷]+|\()").match(text, at):
        at = it.end()
        if it[1] == "(":
            start, depth = it.start(1), 1
            while depth and at < len(text):
                depth += (text[at] == "(") - (text[at] == ")")
                at += 1
            found.append(text[start:at])
        else:
            found.append(it[1])
    return found


@functools.cache
def marks():
    """The marks of all files of proofs: the file, the line below it, the word, which of the two, and what follows."""
    found = []
    for file in sorted(glob.glob(f"{TOP}/crates/*/proofs/**/*.antt", recursive=True)):
        file = os.path.relpath(file, TOP)
        for n, line in enumerate(text_of(file).split("\n")):
            if mark := MARK.match(line):
                names, _, elsewhere = mark[2].partition(", by ")
                found += [(file, n + 1, name.strip(), mark[1], (elsewhere and f"{elsewhere}: {mark[3]}") or "", not elsewhere and mark[3]) for name in names.split(",")]
    return found


def fact_of(file, at, elsewhere):
    """The fact below a mark, or the one that it names, with its file."""
    if not elsewhere:
        return file, Fact(file, at)
    place, name = elsewhere.split(": ")
    lines = text_of(place).split("\n") if os.path.isfile(f"{TOP}/{place}") else []
    return place, next((Fact(place, n) for n, line in enumerate(lines) if re.match(rf" *(?:pub )?{re.escape(name)} :", line)), None)


def read_marks(walk):
    """For each definition and field with a mark, the facts of either side; and what is wrong with a mark."""
    found, wrong = {}, []
    for file, at, word, side, elsewhere, reason in marks():
        name, _, field = word.partition(".")
        place, fact = fact_of(file, at, elsewhere)
        where = f"{file}:{at}: {side}: {word}"
        if reason or side == "nothing":
            own = {to for to in walk.seen if to[1] == name and to[0].endswith(".antt")}
            if side == "yes" or not reason or len(own) != 1:
                wrong.append(f"{where}: only one definition of the list can have a reason, and only for 'no' or 'nothing'")
            for to in own:
                found.setdefault((to, field), {}).setdefault(side, []).append(f"none, {reason}")
            continue
        if fact is None or fact.name is None:
            wrong.append(f"{where}: no fact stands there")
            continue
        own = next((to for to in walk.words_in(fact.type, (*imports_of(text_of(place)), place), set()) if to[1] == name), None)
        if own is None:
            wrong.append(f"{where}: the type of {fact.name} does not cite it")
        elif side == "no" and not re.search(r"(⊥|\bfalse)\)*$", fact.type):
            wrong.append(f"{where}: the type of {fact.name} ends in neither ⊥ nor false")
        elif field and not re.search(rf"\.{field}\b", fact.text):
            wrong.append(f"{where}: {fact.name} does not apply the field")
        else:
            of_nothing = OF_NOTHING if not field and fact.is_of_nothing(name) else ""
            found.setdefault((own, field), {}).setdefault(side, []).append(f"{place.removeprefix('crates/').removesuffix('.antt')}: {fact.name}{of_nothing}")
    return found, wrong


def report_facts(walk, roots):
    """Prints the facts of each relation, and returns the status."""
    found, wrong = read_marks(walk)
    rows, relations, reasons, missing, empty = [], 0, 0, 0, 0
    files = dict.fromkeys(file for root in roots for file in walk.files(root))
    for to in (it for file in files if file.endswith(".antt") for it in walk.in_order(file)):
        definition = definitions(to[0])[to[1]]
        if not definition.is_relation():
            continue
        relations += 1
        wanted = [("", side) for side in ("yes", "no")]
        wanted += [(field, "yes") for field in definition.fields()] if to[1] in APPLIED else []
        for field, side in wanted:
            facts = found.get((to, field), {}).get(side, [])
            missing += not facts
            reasons += any(it.startswith("none, ") for it in facts)
            rows.append(f"{to[1] + ('.' + field if field else ''):24} {side:3}  {'; '.join(facts) or 'MISSING'}")
        shown = found.get((to, ""), {})
        both = [it for side in ("yes", "no") for it in shown.get(side, [])]
        if both and all(it.endswith(OF_NOTHING) for it in both) and "nothing" not in shown:
            empty += 1
            rows.append(f"{to[1]:24} is shown only where nothing is there")
    print("\n".join(rows + wrong))
    print(f"facts: {relations} relations, {reasons} that nothing refutes, {missing} facts missing, {empty} shown only where nothing is there, {len(wrong)} marks wrong")
    return 1 if missing or wrong or empty else 0


# ---- Rust sources


@functools.cache
def sources(crate):
    return sorted(os.path.relpath(it, TOP) for it in glob.glob(f"{TOP}/crates/{crate}/src/**/*.rt", recursive=True))


@functools.cache
def of_item(crate, name, module=None):
    """The file and name of a type or constant of a crate, or of one that the crate re-exports."""
    files = [it for it in sources(crate) if any(item[2] == name for item in ITEM.finditer(text_of(it)))]
    if module:
        files = [it for it in files if it.endswith((f"/src/{module}.rt", f"/src/{module}/mod.rt"))] or files
    if files:
        return files[0], name
    for file in sources(crate):
        other = rust_uses(file).get(name)
        if other and other != crate and re.search(rf"^pub use [^;]*\b{name}\b", text_of(file), re.M):
            return of_item(other, name)
    return None


@functools.cache
def rust_uses(file):
    """The crate of each name in a file's uses; None for the kit."""
    found, own = {}, file.split("/")[1]
    for path in re.findall(r"^(?:pub )?use ([^;]*);", text_of(file), re.M):
        crate = re.match(r"\w+", path)[0]
        crate = own if crate in ("crate", "super", "self") else crate
        for name in re.findall(r"[A-Z]\w*", path):
            found[name] = crate if os.path.isdir(f"{TOP}/crates/{crate}") else None
    return found


@functools.cache
def without_strings(text):
    """A Rust text with its strings, characters and comments blanked out."""
    return re.sub(r"//[^\n]*|b?\"(?:\\.|[^\"\\])*\"|b?'(?:\\.[^']*|[^'\\\n])'", lambda it: " " * len(it[0]), text, flags=re.S)


def bracket_end(text, at):
    """The position after the bracket that closes the one at a position."""
    text, depth = without_strings(text), 0
    for n in range(at, len(text)):
        depth += (text[n] in "{(") - (text[n] in "})")
        if depth == 0:
            return n + 1
    raise SystemExit("reading: a bracket does not close")


@functools.cache
def item_text(file, name):
    """The kind of a type or constant, its text, and the number of its lines with the comments above it."""
    text = text_of(file)
    item = next(it for it in ITEM.finditer(text) if it[2] == name)
    end = re.compile(r"[;{(]").search(text, item.end())
    if item[1] in ("const", "type"):
        stop = text.index(";", item.end()) + 1
    else:
        stop = bracket_end(text, end.start()) if end[0] != ";" else end.end()
    lines = text[: item.start()].split("\n")[:-1]
    top = len(lines)
    while top and lines[top - 1].startswith(("//", "#[")) and not lines[top - 1].startswith("//!"):
        top -= 1
    return item[1], text[item.start() : stop], lines_in(lines[top:] + text[item.start() : stop].split("\n"))


@functools.cache
def model_of(crate, name):
    """The value that a type's Model names, with the imports there."""
    for file in sources(crate):
        text = text_of(file)
        it = re.search(rf"^impl(?:<[^{{]*?>)? Model for {name}\b[^{{]*\{{", text, re.M)
        if it:
            body = text[it.end() - 1 : bracket_end(text, it.end() - 1)]
            value = re.search(r"ghost Value = (\{.*?\});", body, re.S)
            if value:
                return value[1], imports_of(heads_of(text) + without_indent(body)), file
    return None


def without_indent(text):
    return re.sub(r"^ +", "", text, flags=re.M)


def heads_of(text):
    return "\n".join(re.findall(r"^ghost use .*", text, re.M)) + "\n"


def functions(file):
    """The functions of a file: the type of the impl or trait round each, its name, where it stands, and the imports that it sees."""
    text = text_of(file)
    blocks = []
    for it in re.finditer(r"^(?:pub )?(?:impl|trait)\b[^{;]*\{", text, re.M):
        head = re.sub(r"<[^<>]*(?:<[^<>]*>[^<>]*)*>", "", it[0])
        kind = re.search(r"(?:\bfor\s+|impl\s+|trait\s+)(?:\w+::)*(\w+)[^{]*\{$", head)
        blocks.append((it.start(), bracket_end(text, it.end() - 1), kind[1] if kind else ""))
    for it in re.finditer(r"^ *(?:pub(?:\([a-z]+\))? )?(?:const )?(?:extern \"C\" )?fn (\w+)", text, re.M):
        kind, ghost = "", heads_of(text)
        for start, stop, name in blocks:
            if start < it.start() < stop:
                kind = name
                ghost += "\n".join(without_indent(line) for line in re.findall(r"^    ghost use .*", text[start:stop], re.M)) + "\n"
        yield kind, it[1], it.start(), ghost


def clauses_of(file, name, kind):
    """The clauses of a function, its signature, and the imports that its clauses see."""
    text = text_of(file)
    start, ghost = next((at, ghost) for it, fn, at, ghost in functions(file) if (it, fn) == (kind, name))
    clause = re.compile(r"\s*(?://[^\n]*\s*)*(?:requires|ensures)(?: \w+)? (?=\{)")
    at = bracket_end(text, text.index("(", start))
    more = re.compile(r"(?:\[[^\]]*\]|[^{;])*?(?=\n\s*(?:requires|ensures)\b|\s*\{|;)", re.S).match(text, at)
    signature, at = text[start : more.end()], more.end()
    clauses = []
    while it := clause.match(text, at):
        at = bracket_end(text, it.end())
        clauses.append(text[it.start() : at].strip())
    return clauses, signature, ghost


def found_function(word):
    """The files that have the function of this name."""
    crate, *between, name = word.split("::")
    if not os.path.isdir(f"{TOP}/crates/{crate}"):
        return [], name
    kind = between.pop() if between and between[-1][0].isupper() else ""
    found = []
    for file in sources(crate):
        if between and not file.endswith(("/" + "/".join(between) + ".rt", "/" + "/".join(between) + "/mod.rt")):
            continue
        found += [(file, kind) for it, fn, at, _ in functions(file) if (it, fn) == (kind, name) and re.match(r" *pub fn", text_of(file)[at:])]
    if len(found) > 1:
        head = text_of(f"crates/{crate}/src/lib.rt")
        found = [it for it in found if re.search(rf"^pub use (?:crate::)?{os.path.basename(it[0])[:-3]}::[^;]*\b{name}\b", head, re.M)] or found
    return found, name


def walk_from(word, walk):
    """Walks from a word, and returns where it stands."""
    if "::" in word:
        found, name = found_function(word)
        if len(found) != 1:
            raise SystemExit(f"reading: {'there is no function' if not found else 'more than one function is'} {word} {' '.join(it[0] for it in found)}".rstrip())
        file, kind = found[0]
        if not clauses_of(file, name, kind)[0]:
            raise SystemExit(f"reading: {word} has no clause")
        root = (file, f"{kind}::{name}" if kind else name)
        walk.go(root, lambda: walk.of_function(file, name, kind))
        return root
    path, _, name = word.rpartition(".")
    root = walk.of_path(path, name) if path.count(".") > 1 else None
    if root is None:
        raise SystemExit(f"reading: there is no definition {word}")
    walk.go(root, functools.partial(walk.of_definition, *root))
    return root


def each_of(word):
    """The functions of a module that a word with * stands for, or the word itself."""
    if not word.endswith("::*"):
        return [word]
    crate, _, module = word.removesuffix("::*").partition("::")
    found = [fn for file in sources(crate) if file.endswith(f"/src/{module}.rt") for kind, fn, at, _ in functions(file) if not kind and clauses_of(file, fn, kind)[0]]
    if not found:
        raise SystemExit(f"reading: there is no function of {word}")
    return [f"{crate}::{module}::{fn}" for fn in found]


def main(words):
    asked = words[0] if words[:1] in (["--facts"], ["--beyond"]) else ""
    words = words[bool(asked) :]
    if not words or words[0].startswith("-") or len(words) > 1 and not asked:
        print(__doc__.strip())
        return 0 if words in (["-h"], ["--help"]) else 2
    walk, known = Walk(), Walk()
    if asked == "--facts":
        return report_facts(walk, [walk_from(it, walk) for word in words for it in each_of(word)])
    for word in words[:-1]:
        walk_from(word, known)
    report(walk, walk_from(words[-1], walk), known)
    return 0


def report(walk, root, known):
    """Prints the list of a word, without what another walk has seen."""
    sums = {".antt": [0, 0, 0], ".rt": [0, 0, 0]}
    rows, comments = [], 0
    for file in walk.files(root):
        own = [it for it in walk.in_order(file) if it not in known.seen]
        if not own:
            continue
        lines = sum(walk.seen[it] for it in own)
        rows.append(f"{lines:5}  {file}: {', '.join(it[1] for it in own)}")
        comments += sum(definitions(file)[it[1]].comments for it in own) if file.endswith(".antt") else 0
        part = sums[os.path.splitext(file)[1]]
        part[0] += lines
        part[1] += len(own)
        part[2] += 1
    print("\n".join(rows))
    for kind, (lines, count, files) in sums.items():
        what = f"definitions, {comments} of them comments," if kind == ".antt" else "Rust items"
        print(f"{lines:5}  lines of {count} {what} in {files} {kind} files")
    print(f"{sum(it[0] for it in sums.values()):5}  lines together")
    for crate in sorted(walk.kit):
        words = sorted(walk.kit[crate] - known.kit.get(crate, set()))
        if words:
            print(f"of the kit, {crate}: {', '.join(words)}")


if __name__ == "__main__":
    signal.signal(signal.SIGPIPE, signal.SIG_DFL)
    sys.exit(main(sys.argv[1:]))
