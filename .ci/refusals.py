"""Refuses allocations of a program, one in each run, by the library .ci/refuse.c: each run parts from one in which none is refused, where its own allocation is."""
import collections
import contextlib
import os
import re
import shlex
import subprocess
import tempfile

HERE = os.path.dirname(os.path.abspath(__file__))
SECONDS = 60
AGAIN = re.compile(r"^again (\w+)$", re.M)
# The program of bench/programs whose allocations are refused, and what it plays for a line of its input. First how many of its allocations are at least in each call that it makes once more where memory runs out.
# Then the step of a short round, which refuses every step-th allocation and the first of each place that no life of the same first word before has, and how many of those are at least in each call: at step 1 all of them.
PROGRAM = "refused_memory"
Life = collections.namedtuple("Life", "line calls step least")
LIVES = [
    Life("calls", {"decode": 11, "check": 73}, 1, {}),
    Life("chain", {"connect": 70, "disconnect": 54}, 11, {"connect": 8, "disconnect": 7}),
    Life("channel short", {"receive": 91}, 1, {}),
    Life("channel long", {"receive": 330}, 31, {"receive": 10}),
    Life(
        "book short",
        {"open": 128, "step": 62, "sign": 52, "revoke": 4, "keep": 57, "keep_set": 1, "release": 28, "release_twice": 46, "release_again": 54, "close": 1, "revoked": 1, "known": 72},
        1,
        {},
    ),
    Life(
        "book long",
        {"open": 90, "step": 150, "sign": 68, "revoke": 6, "keep": 385, "release": 30, "revoked": 3, "known": 190, "dump": 1080, "load": 1780},
        997,
        {"dump": 7, "load": 12},
    ),
]


@contextlib.contextmanager
def library():
    """Where the library stands, compiled, for as long as it is used."""
    with tempfile.TemporaryDirectory() as folder:
        place = f"{folder}/refuse.so"
        words = [*shlex.split(os.environ.get("CC") or "cc"), "-O2", "-shared", "-fPIC", "-o", place, f"{HERE}/refuse.c", "-ldl"]
        try:
            done = subprocess.run(words, capture_output=True, text=True)
        except OSError as error:
            raise SystemExit(f".ci/refuse.c is not compiled: {error}")
        if done.returncode != 0:
            raise SystemExit(f"{done.stderr}.ci/refuse.c is not compiled")
        yield place


def bytes_of(file):
    """The bytes of a file; none if there is no such file."""
    if not os.path.isfile(file):
        return b""
    with open(file, "rb") as given:
        return given.read()


def status_of(library, words, folder, refused):
    """The status of a run, or None where it does not start or end. It reads the file 0 of the folder, and writes 0.1 and 0.2; those in which one of these allocations is refused part from it."""
    setting = {"LD_PRELOAD": library, "REFUSE": " ".join(map(str, refused)), "REFUSE_FOLDER": folder, "REFUSE_JOBS": str(os.cpu_count())}
    with open(f"{folder}/0", "rb") as given, open(f"{folder}/0.1", "wb") as output, open(f"{folder}/0.2", "wb") as error:
        how = {"stdin": given, "stdout": output, "stderr": error, "env": {**os.environ, **setting}, "timeout": SECONDS * (1 + len(refused))}
        try:
            return subprocess.run(words, **how).returncode
        except (subprocess.TimeoutExpired, OSError):
            return None


def run(library, words, given="", refused=()):
    """Status, output and standard error of a run and, in their order, of those in which one of these allocations is refused. One that does not start or end has no status."""
    with tempfile.TemporaryDirectory() as folder:
        with open(f"{folder}/0", "w", encoding="utf-8") as file:
            file.write(given)
        status = status_of(library, words, folder, refused)
        before = [bytes_of(f"{folder}/0.{to}") for to in (1, 2)]
        runs = {number: (None, b"", b"") for number in refused}
        for line in bytes_of(f"{folder}/statuses").splitlines():
            number, ended, *written = map(int, line.split())
            texts = (text[:length] + bytes_of(f"{folder}/{number}.{to}") for to, text, length in zip((1, 2), before, written))
            runs[number] = os.waitstatus_to_exitcode(ended), *texts
    return [(it, output.decode(errors="replace"), error.decode(errors="replace")) for it, output, error in ((status, *before), *runs.values())]


def numbers(error, step, seen):
    """The numbers of the allocations that are refused, by what a run without a refusal says of them: every step-th one and, where it tells them, the first of each place that was not seen, which
    is so from then on. None if it makes none."""
    lines = error.splitlines() or [""]
    count = int(lines[-1]) if lines[-1].isdigit() else 0
    found = {*range((step + 1) // 2, count + 1, step)}
    for line in lines[-2:-1]:
        if line.startswith("places "):
            firsts = [it.split(":") for it in line.split()[1:]]
            found |= {int(number) for number, place in firsts if place not in seen}
            seen |= {place for _, place in firsts}
    return sorted(found)


def sweep(library, kind_of, step, words, given="", seen=None):
    """Refuses these allocations in turn. Returns how many runs were of each kind, and what is said of those that were wrong.

    kind_of takes what a run gave, and answers its kind and what is wrong with it, if anything is.
    """
    [(_, _, error)] = run(library, words, given)
    refused = numbers(error, step, set() if seen is None else seen)
    answers = [kind_of(*it) for it in run(library, words, given, refused)[1:]]
    faults = [f"allocation {number} refused: {fault}" for number, (_, fault) in zip(refused, answers) if fault]
    return collections.Counter(kind for kind, fault in answers if not fault), faults or ([] if refused else ["no allocation was refused"])


def total(right, wrong):
    """The last line of a sweep."""
    return f"refused allocations: {right} right, {wrong} wrong"


def refuse_in(library, program, life, is_short, seen):
    """Refuses the allocations of the program while it plays a life, or those of a short round. Returns how many runs were right, and what is said of the others.

    Where one of the calls that are tried is refused, the program says so on standard error, goes on, and prints what it prints without a refusal: the call changed nothing. So it does where a call
    can do without the memory. Where it is any other, the program ends with status 1, and has printed the beginning of that.
    """
    given, least = f"{life.line}\n", life.least if is_short and life.step > 1 else life.calls
    [(_, wanted, _)] = run(library, [program], given)

    def kind_of(status, text, error):
        calls = AGAIN.findall(error)
        if status == 0 and len(calls) < 2 and text == wanted:
            return "".join(calls), None
        if status == 1 and not calls and wanted.startswith(text):
            return "", None
        return "", f"status {status}, {calls} made again, it printed {text[-300:]!r}\n{error[-1000:]}"

    kinds, faults = sweep(library, kind_of, life.step if is_short else 1, [program], given, seen)
    right, others = sum(kinds.values()), kinds.pop("", 0)
    if not faults:
        faults = [f"{kinds[it]} runs made {it} again, and at least {count} are wanted" for it, count in least.items() if kinds[it] < count]
    said = "".join(f", {count} {it}" for it, count in sorted(kinds.items()))
    print(f"{life.line}: {right + len(faults)} allocations refused, {right - others} of them in the calls that are tried{said}; {len(faults)} wrong", flush=True)
    return right, faults


def refuse_allocations(library, program, is_short):
    """Refuses the allocations of the program, or those of a short round. Returns how many runs were right, and how many were not."""
    with open(f"{HERE}/../bench/programs/{PROGRAM}/stdout", encoding="utf-8") as file:
        wanted = file.read()
    if run(library, [program], "".join(f"{it.line}\n" for it in LIVES))[0][:2] != (0, wanted):
        print(f"{PROGRAM}: it does not print its stdout", flush=True)
        return 0, 1
    right, faults, seen = 0, [], collections.defaultdict(set)
    for life in LIVES:
        found = refuse_in(library, program, life, is_short, seen[life.line.split()[0]])
        right, faults = right + found[0], faults + found[1]
    for fault in faults[:10]:
        print(fault)
    return right, len(faults)
