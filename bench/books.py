#!/usr/bin/env python3
"""Times a signature and the keeping of penalties after 100 and after 10,000 entries of a history, and a revoked state after 20 and after 2,000 others. Times what is known of a channel, by the number of another channel's entries and
of its own commitments, and the load of dumps of several lengths. Loads hostile texts of 4 MiB.

Wants the toolchain's `rt`: `.ci/program` proves and builds bench/programs/book_costs in a copy of the repository.
"""

import hashlib
import json
import os
import subprocess
import tempfile

from bounds import check_bound

TOP = os.path.dirname(os.path.dirname(os.path.abspath(__file__)))
SIZE = 4 << 20
TURNS = 5
# the entries of a dump of 4,183,757 bytes
WHOLE = 15_600

# a text: the part before, the middle, which is repeated, and the part after; and the expected refusal
SIGN = '{"call":["sign",0],"seat":0}'
# a claim by the first of the 64 paths of IF ELSE ENDIF, six times over: each branch and the end ask for a true element
BRANCHES = "636768" * 6
CLAIM = json.dumps(
    {
        "outpoint": "00" * 32 + ":0",
        "path": 0,
        "program": "0020" + hashlib.sha256(bytes.fromhex(BRANCHES)).hexdigest(),
        "script": BRANCHES,
        "shell": None,
        "slots": 7 * [["exact", "01"]],
        "value": 0,
    },
    separators=(",", ":"),
)
HOSTILE = {
    "arrays in arrays, open": ("", "[", "", "NotJson"),
    "objects in objects, open": ("", '{"a":', "", "NotJson"),
    "one long string": ('"', "a", '"', "BadShape"),
    "a long string of escapes": ('"', "\\u0041", '"', "BadShape"),
    "a long string that does not end": ('"', "a", "", "NotJson"),
    "one long number": ("", "9", "", "NotJson"),
    "a long number behind a point": ("0.", "1", "", "BadShape"),
    "a long exponent": ("1e", "9", "", "NotJson"),
    "many numbers": ("[0", ",0", "]", "BadShape"),
    "many empty arrays": ("[0", ",[]", "]", "BadShape"),
    "many arrays of one number": ("[0", ",[0]", "]", "BadShape"),
    "many empty objects": ("[0", ",{}", "]", "BadShape"),
    "many objects of one member": ("[0", ',{"":0}', "]", "BadShape"),
    "one member again and again": ('{"history":[]', ',"version":9', "}", "BadShape"),
    "a long seat": ('{"history":[{"call":["sign",0],"seat":', "9", '}],"version":2}', "NotJson"),
    "a long name of a call": ('{"history":[{"call":["', "a", '",0],"seat":0}],"version":2}', "BadShape"),
    "long bytes": ('{"history":[{"call":["step",0,"fulfil",0,"', "00", '"],"seat":0}],"version":2}', "BadShape"),
    "claims on scripts of 64 paths": ('{"history":[{"call":["keep",0,0,[' + CLAIM, "," + CLAIM, ']],"seat":0}],"version":2}', "BadHistory 0"),
    "calls without a channel": ('{"history":[' + SIGN, "," + SIGN, '],"version":2}', "BadHistory 0"),
}


def hostile_text(before, middle, after):
    """A text of at most 4 MiB."""
    times = (SIZE - len(before) - len(after)) // len(middle)
    return before + times * middle + after


def run(program, line, *words):
    """The output of the program, called with these words, for a line; its processor seconds, and its peak memory in MiB."""
    with tempfile.TemporaryFile("w+") as given:
        given.write(line)
        given.seek(0)
        started = subprocess.Popen([program, *words], stdin=given, stdout=subprocess.PIPE, stderr=subprocess.DEVNULL, text=True)
    with started.stdout as printed:
        text = printed.read().strip()
    _, status, usage = os.wait4(started.pid, 0)
    if status != 0 and not text:
        text = f"status {status}"
    return text, usage.ru_utime + usage.ru_stime, usage.ru_maxrss / 1024


def least_numbers(program, line):
    """The least of each number that the line prints, over several runs."""
    best = None
    for _ in range(TURNS):
        numbers = [int(word) for word in run(program, line)[0].split() if word.isdigit()]
        best = numbers if best is None else [min(pair) for pair in zip(best, numbers)]
    return best


def time_calls(program):
    few, many = least_numbers(program, "calls 100\n"), least_numbers(program, "calls 10000\n")
    for name, of_few, of_many in zip(("sign", "keep"), few, many):
        print(f"{name}: {of_few / 1e3:.1f} us after 100 entries, {of_many / 1e3:.1f} us after 10,000")
        check_bound(f"{name} after 10,000 entries to {name} after 100", of_many / of_few, 1.2)


def time_revoked_states(program):
    (few,), (many,) = least_numbers(program, "revoked 20\n"), least_numbers(program, "revoked 2000\n")
    print(f"revoked: {few / 1e3:.1f} us after 20 revoked commitments, {many / 1e3:.1f} us after 2,000")
    check_bound("a revoked state after 2,000 others to one after 20", many / few, 1.2)


def time_known_channels(program):
    alone, beside = least_numbers(program, "known 100 0\n")[0], least_numbers(program, "known 100 10000\n")[0]
    print(f"known: {alone / 1e3:.0f} us alone, {beside / 1e3:.0f} us beside 10,000 entries of another channel")
    check_bound("known beside 10,000 entries of another channel to known alone", beside / alone, 1.2)
    costs = []
    for commitments in (20, 200, 2000):
        known, tokens = least_numbers(program, f"known {commitments} 0\n")
        costs.append(known / commitments)
        print(f"known of {commitments} commitments of each side: {known / 1e6:.2f} ms, {costs[-1] / 1e3:.1f} us for one of each; the peer's tokens take {tokens / commitments / 1e3:.1f} us")
    check_bound("known of one of 2,000 commitments to one of 20", costs[-1] / costs[0], 1.2)


def load_cost(program, entries):
    """The bytes of the dump of n entries, and the processor seconds of its load: those of the line that loads it five times, less those of the one that loads it once."""
    five = [run(program, f"loads {entries}\n") for _ in range(TURNS)]
    one = min(run(program, f"play {entries}\n")[1] for _ in range(TURNS))
    length = int(five[0][0].split()[1])
    return length, (min(took for _, took, _ in five) - one) / 4


def time_loads(program):
    costs = []
    for entries in (1000, 4000, 16_000):
        length, took = load_cost(program, entries)
        costs.append(took / length)
        print(f"load of {entries} entries: {length} bytes, {took * 1e3:.1f} ms, {costs[-1] * 1e9:.0f} ns a byte")
    check_bound("a byte of a dump of 16,000 entries to one of 1,000", costs[-1] / costs[0], 1.5)


def load_whole_dump(program):
    """A dump of just below 4 MiB, which is loaded. The memory is that of the program, in which two nodes made it."""
    length, took = load_cost(program, WHOLE)
    print(f"load of {WHOLE:,} entries: {length} bytes, {took * 1e3:.1f} ms")
    check_bound("load of 4 MiB, a whole dump", took, 2, unit=" s")
    check_bound("load of 4 MiB, a whole dump, memory", run(program, f"loads {WHOLE}\n")[2], 256, unit=" MiB")


def load_hostile_texts(program):
    for name, (before, middle, after, wanted) in HOSTILE.items():
        answer, took, memory = run(program, "load " + hostile_text(before, middle, after) + "\n")
        print(f"{name}: {answer}{'' if answer == wanted else f', and not {wanted}'}")
        check_bound(f"load of 4 MiB, {name}", took, 2, unit=" s")
        check_bound(f"load of 4 MiB, {name}, memory", memory, 256, unit=" MiB")
        if answer != wanted:
            raise SystemExit(f"books: {name} is refused as {answer}, and not as {wanted}")


def main():
    built = subprocess.run([os.path.join(TOP, ".ci", "program"), "book_costs"], stdout=subprocess.PIPE, text=True, check=True)
    program = built.stdout.strip()
    time_calls(program)
    time_revoked_states(program)
    time_known_channels(program)
    time_loads(program)
    load_whole_dump(program)
    load_hostile_texts(program)


if __name__ == "__main__":
    main()
