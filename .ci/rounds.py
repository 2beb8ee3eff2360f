"""Rounds: edits that change the bodies of different functions, tried by one check of their crate.

The check is of those functions alone. The proof of each other function of the crate is put in by a hole, which the prover takes by what the function promises, as it takes a function of a library
below. So a try costs what the changed functions cost, and not the proof of their crate. First the functions are checked as they stand, in the same way: each has to be proved, but for the holes.

A round says of an edit that it is refused where the check does not prove a goal of a function that this edit changes, and no other one of the round. That is as good as a
check of the edit alone. The goals that a function owes are made of its own body and of what that names: contracts, types, constants and definitions. No function sees
another one's body, and a round changes nothing but bodies. So the same goal is owed, and not proved, in a check of that edit alone.

The other way round a round says nothing. What it does not settle is tried alone, in the same way:
- an edit that changes anything but the body of a plain function (`bodies`): a constant, a type, a signature, an import, a default body of a trait, a `const fn`, whose
  body others may see through a constant, a function of a named cycle of calls, whose proof is that of all, or a body that has items of its own;
- an edit whose functions have no goal and no answer of their own that failed (`failures`): they are proved, or not proved for what they call alone, or their proofs name
  what the edit took away, or are taken away themselves;
- an edit in whose function the check cannot read something (`unread_functions`): its round is checked again without it;
- the edits of a round that comes to no verdict, once its halves have come to none either.
What that does not settle either, as an edit of a constant alone, is tried by `rt must-fail`, which proves the whole crate with it.
"""
import collections
import functools
import json
import os
import re
import shutil
import subprocess
import tempfile

import room as rooms

# How often a round is checked again, in part.
AGAIN = 3
# The types of the language that an impl can be of.
PRIMITIVES = {*"bool char str u8 u16 u32 u64 u128 usize i8 i16 i32 i64 i128 isize".split()}
# The words of items, through which a body can be more than code of its own.
ITEMS = {*"fn impl struct enum trait mod const static use type macro_rules".split()}
Token = collections.namedtuple("Token", "line start end kind text")
# Where a function stands in the crate, the tokens of its body with their first and last byte, and the lines of the whole.
Function = collections.namedtuple("Function", "path body start end first last")


def tokens(text):
    """The tokens of a source, as the check reads them."""
    with tempfile.NamedTemporaryFile("w", suffix=".rt", encoding="utf-8") as file:
        file.write(text)
        file.flush()
        rattle = f"{os.path.dirname(os.path.realpath(shutil.which('rt')))}/rattle"
        said = subprocess.run([rattle, "fmt", "--tokens", file.name], check=True, capture_output=True, encoding="utf-8").stdout
    rows = (line.split(" ", 4) for line in said.splitlines()[1:])
    return [Token(int(line), int(start), int(end), kind, json.loads(text)) for line, start, end, kind, text in rows]


def code(token):
    return token.text if token.kind == "Code" else ""


def end_of(row, at):
    """The place behind a token, or behind all that stands in the bracket or the clause that it opens."""
    if row[at].kind == "Head" and row[at].text == "{":
        while row[at].kind != "End":
            at += 1
        return at + 1
    depth = 0
    while True:
        depth += (code(row[at]) in ("(", "[", "{")) - (code(row[at]) in (")", "]", "}"))
        at += 1
        if depth <= 0 or at == len(row):
            return at


def self_name(words, parameters):
    """What the check calls a type that is no path: an array by its element and length, a tuple by its length, a type of the language with a great letter."""
    if words[:1] == ["["]:
        return "Array" + "".join(it[:1].upper() + it[1:] for it in words if re.fullmatch(r"\w+", it) and it not in parameters)
    if words[:1] == ["("]:
        return f"Tuple{words.count(',') + 1}"
    return words[0][:1].upper() + words[0][1:] if words and words[0] in PRIMITIVES else None


def owner(head, words):
    """The type of an impl and what the check calls the impl: by the type, and then by its trait with the names of its arguments. None for the type where there is a trait, or where it has arguments. words: all that
    stands behind the trait."""
    depth, names, parameters, arguments = 0, [""], set(), []
    for before, it in zip(["", *head], head):
        depth += (it == "<") - (it == ">" and before not in ("-", "="))
        if depth == 0 and it == "where":
            break
        if depth == 0 and it == "for":
            names.append("")
        elif depth == 0 and re.fullmatch(r"\w+", it):
            names[-1] = it
        elif depth == 1 and not names[0] and before in ("<", ",", "const"):
            parameters.add(it)
        elif depth > 0 and names[0] and len(names) == 1 and it not in parameters and re.fullmatch(r"\w+|\(", it):
            arguments.append("Unit" if it == "(" else it)
    if len(names) == 1:
        return (names[0], names[0]) if not arguments else (None, "+".join([names[0], *arguments]))
    return None, "".join([self_name(words, parameters) or names[1], names[0], *arguments])


@functools.lru_cache(maxsize=8)
def homes(folder):
    """The module of each type that the crate there declares once."""
    found = collections.defaultdict(set)
    for file in files_of(folder):
        for name in re.findall(r"^(?:pub(?:\([^)]*\))? )?(?:struct|enum) (\w+)", source(folder, file), re.M):
            found[name].add(module_of(file))
    return {name: next(iter(modules)) for name, modules in found.items() if len(modules) == 1}


def files_of(folder):
    return sorted(os.path.relpath(os.path.join(at, name), folder) for at, _, names in os.walk(f"{folder}/src") for name in names if name.endswith(".rt"))


def module_of(file):
    module = tuple(file.removeprefix("src/").removesuffix(".rt").removesuffix("/mod").split("/"))
    return () if module in (("lib",), ("main",)) else module


def plain_functions(row, at, end, path, types):
    """The plain functions among the items between these places, each with the places of its body. types: the modules of the crate's types, by which the methods of their own are called."""
    while at < end:
        first, head, places, attributes = at, [], [], []
        while at < end and code(row[at]) == "#":
            close = end_of(row, at + 2 if code(row[at + 1]) == "!" else at + 1)
            attributes += map(code, row[at:close])
            at = close
        while at < end and code(row[at]) not in ("{", ";"):
            head.append(code(row[at]))
            places.append(at)
            at = end_of(row, at)
        if at >= end:
            return
        words = [*map(code, row[places[head.index("for")] + 1 : at])] if "for" in head else []
        close, is_block = end_of(row, at), code(row[at]) == "{"
        head = [it for before, it in zip(["", *head], head) if it not in ("pub", "") and (before, it) != ("pub", "(")]
        if is_block and head[:1] == ["mod"]:
            yield from plain_functions(row, at + 1, close - 1, (*path, head[1]), types)
        elif is_block and head[:1] == ["impl"]:
            of_type, name = owner(head[1:], words)
            yield from plain_functions(row, at + 1, close - 1, (*types.get(of_type, path), name), types)
        elif is_block and head[:1] == ["fn"] and "cycle" not in attributes and not ITEMS & {*map(code, row[at:close])}:
            body = [(it.kind, it.text) for it in row[at:close]]
            yield at, close, Function((*path, head[1]), body, row[at].start, row[close - 1].end, row[first].line, row[close - 1].line)
        at = close


@functools.lru_cache(maxsize=256)
def read(text, file, folder):
    """The plain functions of a source of the crate there by their paths, and all else that stands in it."""
    row = tokens(text)
    found = list(plain_functions(row, 0, len(row), module_of(file), homes(folder)))
    # two impls of one trait for one type can have one path
    counts = collections.Counter(it.path for _, _, it in found)
    functions, rest, at = {}, [], 0
    for start, close, function in found:
        if counts[function.path] == 1:
            functions[function.path] = function
            rest += [*((it.kind, it.text) for it in row[at:start]), function.path]
            at = close
    return functions, rest + [(it.kind, it.text) for it in row[at:]]


def source(folder, file):
    with open(f"{folder}/{file}", encoding="utf-8") as opened:
        return opened.read()


def bodies(texts, folder):
    """The new body of each function that an edit with these texts changes, by file and path. None where it changes anything else."""
    changed = {}
    for file, text in texts.items():
        try:
            (ours, rest), (theirs, other) = read(source(folder, file), file, folder), read(text, file, folder)
        except subprocess.CalledProcessError:
            return None
        if rest != other:
            return None
        for path, it in theirs.items():
            if it.body != ours[path].body:
                changed[file, path] = text.encode()[it.start : it.end]
                # goals are found by their lines
                if (it.first, it.last) != (ours[path].first, ours[path].last):
                    return None
    return changed or None


def rounds_of(changed):
    """Edits in rounds. No round has two edits of one function. changed has what `bodies` says of each."""
    rounds = []
    for edit, functions in changed.items():
        free = [it for it in rounds if not any(functions.keys() & changed[other].keys() for other in it)]
        if free:
            free[0].append(edit)
        else:
            rounds.append([edit])
    return rounds


def combined_sources(folder, changed):
    """The sources of the crate there with these bodies."""
    texts = {}
    for file in {file for file, _ in changed}:
        text = source(folder, file)
        functions, data = read(text, file, folder)[0], text.encode()
        for path in sorted((path for at, path in changed if at == file), key=lambda it: -functions[it].start):
            data = data[: functions[path].start] + changed[file, path] + data[functions[path].end :]
        texts[file] = data.decode()
    return texts


def changed_functions(texts, folder):
    """The functions whose bodies an edit with these texts changes, by file and path, whatever else it changes."""
    found = set()
    for file, text in texts.items():
        try:
            (ours, _), (theirs, _) = read(source(folder, file), file, folder), read(text, file, folder)
        except subprocess.CalledProcessError:
            return set()
        found |= {(file, path) for path, it in theirs.items() if path not in ours or it.body != ours[path].body}
    return found


def emptied(text, file, folder, paths):
    """A source of the crate there in which these functions have a body of nothing, line for line as it was."""
    functions, data = read(text, file, folder)[0], text.encode()
    for path in sorted({*paths} & functions.keys(), key=lambda it: -functions[it].start):
        start, end = functions[path].start, functions[path].end
        data = data[:start] + b"{ loop {} " + b"\n" * data[start:end].count(b"\n") + b"}" + data[end:]
    return data.decode()


class Bench:
    """A copy of a crate in a folder of its own, in which a few of its functions are tried over the libraries of a room, each check over what those before it kept."""

    def __init__(self, room, crate):
        self.crate, self.given = crate, f"{room}/crates/{crate}"
        self.folder, self.words = tempfile.mkdtemp(prefix=f"edits-{crate}-"), rooms.check_words(room, crate)
        self.files = files_of(self.given)
        self.names = {path for file in self.files for path in read(source(self.given, file), file, self.given)[0] if "tests" not in path}
        # those that have their own proofs: the functions that are tried, and those whose proof no hole can stand for
        self.tried = set()

    def lay(self, texts):
        """Lays the crate out with these texts in place of its own, and holes for the proofs of all functions but those that are tried."""
        for part in ("src", "specs", "proofs"):
            shutil.rmtree(f"{self.folder}/{part}", ignore_errors=True)
            if os.path.isdir(f"{self.given}/{part}"):
                shutil.copytree(f"{self.given}/{part}", f"{self.folder}/{part}")
        for file in self.files:
            text = texts.get(file) or source(self.given, file)
            with open(f"{self.folder}/{file}", "w", encoding="utf-8") as opened:
                opened.write(emptied(text, file, self.given, self.names - self.tried))
        for path in self.names - self.tried:
            place, name = f"{self.folder}/proofs/{'/'.join(path)}", path[-1]
            os.makedirs(place, exist_ok=True)
            for old in ("Invariants", "Answers", "Proof"):
                if os.path.isfile(f"{place}/{old}.antt"):
                    os.remove(f"{place}/{old}.antt")
            with open(f"{place}/Proof.antt", "w", encoding="utf-8") as opened:
                opened.write(f"use Rattle.{self.crate}.proofs.{'.'.join(path)}.Statement.{{statement}}\n\npub {name}_spec : {{M : Type 1}} → statement M\n{name}_spec = ?\n")

    def check(self, texts, paths):
        """The lines of a check of these functions, with these texts in place of the crate's own."""
        self.lay(texts)
        words = [*self.words, "--allow-holes", "--incremental", f"{self.folder}/kept", *(it for path in sorted(paths) for it in ("--only", "::".join(path)))]
        os.makedirs(f"{self.folder}/kept", exist_ok=True)
        ran = subprocess.run(words, cwd=self.folder, stdin=subprocess.DEVNULL, stdout=subprocess.PIPE, stderr=subprocess.STDOUT, text=True, errors="replace")
        return ran.stdout.splitlines()

    def fault(self, paths, again=AGAIN):
        """Why these functions, which are to be tried, are not proved as they stand, but for the holes. None where they are."""
        self.tried |= {*paths} & self.names
        paths = {*paths} & self.names
        lines = self.check({}, paths)
        ends = ends_of(lines)
        wrong = [it for it in paths if not re.match(r"no holes|depends on a hole", ends.get("::".join((self.crate, *it)), ""))]
        if not wrong and has_end(lines):
            return None
        # a hole that can't stand for the proof of its function
        odd = {tuple(it[1].split("/")) for it in (re.match(r"(?:\./)?proofs/(\S+)/Proof\.antt:.*error", line) for line in lines) if it} & (self.names - self.tried)
        if again:
            # or all of them, where it is something else
            self.tried |= odd or self.names
            return self.fault(paths, again - 1 if odd else 0)
        said = [line for line in lines if "error" in line] or lines[-3:]
        return f"{'::'.join(wrong[0]) if wrong else self.crate} is not proved as it stands: {' '.join(said)[:300]}"

    def close(self):
        shutil.rmtree(self.folder, ignore_errors=True)


def ends_of(lines):
    """What a check says of each function."""
    return {it[1]: it[2] for it in (re.match(r"fn (\S+): (.*)", line) for line in lines) if it}


def has_end(lines):
    return any(re.match(r"only=\d+ holes=\d+$", line) for line in lines[-3:])


def unread_functions(lines, functions):
    """Of these functions, by file and path, those in which the check cannot read something, and whether there is anything else that it cannot."""
    found, is_else = set(), False
    for line in lines:
        at = re.match(r"(?:\./)?((?:src|specs)/\S+?):(\d+):\d+: error|.*\berror\[[\w-]+\]", line)
        if at:
            own = {(file, path) for (file, path), it in functions.items() if at[1] == file and it.first <= int(at[2]) <= it.last}
            found |= own
            is_else = is_else or not own
    return found, is_else


def failures(lines, crate, functions):
    """Of these functions, by file and path, those that are not proved for a goal or an answer of their own, with the first line that says so."""
    ends = ends_of(lines)
    goal = re.compile(r"note: (?:\./)?(src/\S+?):(\d+):\d+: (?:it is not proved that |`search` found no proof \()")
    answer = re.compile(r"(?:\./)?proofs/(\S+)/\w+\.antt:\d+:\d+: error: ")
    # a proof that names what the edit took away, or that rests on one that is not admitted
    other = re.compile(r"has no field|is not in scope|has no `|admitted")
    found = {}
    for (file, path), it in functions.items():
        if re.match(r"not proved|no proof: expected", ends.get("::".join((crate, *path)), "")):
            goals = [line for line in lines for at in [goal.match(line)] if at and at[1] == file and it.first <= int(at[2]) <= it.last]
            answers = [line for line in lines for at in [answer.match(line)] if at and at[1] == "/".join(path) and not other.search(line)]
            if goals or answers:
                found[file, path] = min(goals + answers, key=lines.index)
    return found


def try_round(bench, edits, changed, again=AGAIN):
    """What a round says of each edit that it settles: a function, and a goal or an answer there that is not proved."""
    of = {key: edit for edit in edits for key in changed[edit]}
    texts = combined_sources(bench.given, {key: changed[edit][key] for key, edit in of.items()})
    functions = {(file, path): read(texts[file], file, bench.given)[0][path] for file, path in of}
    lines = bench.check(texts, {path for _, path in of})
    wrong, is_else = unread_functions(lines, functions)
    if not wrong and not is_else and has_end(lines):
        settled = {}
        for key, line in failures(lines, bench.crate, functions).items():
            settled.setdefault(of[key], ("::".join((bench.crate, *key[1])), line))
        return settled
    readable = [it for it in edits if it not in {of[key] for key in wrong}]
    half = len(readable) // 2
    parts = [readable] if wrong else [readable[:half], readable[half:]] if half else []
    return {edit: it for part in parts if part and again for edit, it in try_round(bench, part, changed, again - 1).items()}


def try_alone(bench, texts):
    """What a check of the functions that an edit with these texts changes says of it: a function, and a goal or an answer there that is not proved. None where it says nothing."""
    keys = changed_functions(texts, bench.given)
    functions = {(file, path): read(texts[file], file, bench.given)[0][path] for file, path in keys}
    lines = bench.check(texts, {path for _, path in keys}) if keys else []
    wrong, is_else = unread_functions(lines, functions)
    if wrong or is_else or not has_end(lines):
        return None
    found = failures(lines, bench.crate, functions)
    return next((("::".join((bench.crate, *key[1])), line) for key, line in sorted(found.items())), None)
