"""The ways to spend whose answers are written down beforehand: what the pages and the standards say of each.

Places are opcodes of the script, counted from 0. 'push K' is what opcode K pushes, 'item J' the item J of the witness,
from the first, 'hash J' its HASH160, and '-' the empty item. Tested, not proved.
"""
from collections import namedtuple
from typing import Any

# path, counted, height: of a clean input. check: the opcode that takes the signatures. stack: what stands there, the
# top first.
# end: the number of opcodes. keys: of each item that is a signature, where its key stands.
Way = namedtuple("Way", "path counted height check stack end keys")

PAIR = ["item 2", "item 1", "item 0"]
OFFERED_PAIR = ["push 17", "push 16", "push 7", "push 14"]
RECEIVED_PAIR = ["push 19", "push 18", "push 7", "push 16"]
TWO_OF_TWO = ["push 3", "push 2", "push 1", "push 0"]
TWO_OF_THREE = ["push 4", "push 3", "push 2", "push 1", "push 0"]

TO_LOCAL_BY_DELAY = Way(1, 6, 2, 8, ["push 6", "item 0"], 9, {0: "push 6"})
TO_LOCAL_BY_REVOCATION = Way(0, 6, 2, 8, ["push 1", "item 0"], 9, {0: "push 1"})
KEY_HASH = Way(0, 4, 4, 4, ["item 1", "item 0"], 5, {0: "item 1"})

WAYS = {
    "to_local by delay": TO_LOCAL_BY_DELAY,
    "to_local by revocation": TO_LOCAL_BY_REVOCATION,
    "second stage by delay": TO_LOCAL_BY_DELAY,
    "second stage by revocation": TO_LOCAL_BY_REVOCATION,
    "to_remote": KEY_HASH,
    "offered by revocation": Way(0, 19, 4, 5, ["item 1", "item 0"], 26, {0: "item 1"}),
    "offered by timeout": Way(1, 21, 7, 18, OFFERED_PAIR + PAIR, 26, {1: "push 7", 2: "push 16"}),
    "offered by preimage": Way(2, 19, 5, 23, ["push 7", "item 0"], 26, {0: "push 7"}),
    "received by revocation": Way(0, 21, 4, 5, ["item 1", "item 0"], 29, {0: "item 1"}),
    "received by success": Way(1, 23, 7, 20, RECEIVED_PAIR + PAIR, 29, {1: "push 7", 2: "push 18"}),
    "received by timeout": Way(2, 21, 5, 26, ["push 7", "item 0"], 29, {0: "push 7"}),
    "funding": Way(0, 3, 7, 4, TWO_OF_TWO + PAIR, 5, {1: "push 1", 2: "push 2"}),
    "close": Way(0, 3, 7, 4, TWO_OF_TWO + PAIR, 5, {1: "push 1", 2: "push 2"}),
    "key hash": KEY_HASH,
    "wallet key": KEY_HASH,
    "first and second of three": Way(0, 4, 8, 5, TWO_OF_THREE + PAIR, 6, {1: "push 1", 2: "push 2"}),
    "first and third of three": Way(0, 4, 8, 5, TWO_OF_THREE + PAIR, 6, {1: "push 1", 2: "push 3"}),
    "second and third of three": Way(0, 4, 8, 5, TWO_OF_THREE + PAIR, 6, {1: "push 2", 2: "push 3"}),
}

# One name for the ways that the faults treat alike.
FAMILY = {way: way for way in WAYS}
FAMILY.update(
    {
        "second stage by delay": "to_local by delay",
        "second stage by revocation": "to_local by revocation",
        "wallet key": "to_remote",
        "close": "funding",
        "first and second of three": "three",
        "first and third of three": "three",
        "second and third of three": "three",
    }
)
PAIRED = ("offered by timeout", "received by success", "funding", "three")

# Where a question about a signature goes into the script: before this opcode. After 'swapped' a key stands above the
# signature there.
QUESTIONS = {
    "to_local by delay": (6, ""),
    "to_local by revocation": (1, ""),
    "key hash": (4, "swapped"),
    "offered by revocation": (5, "swapped"),
    "offered by timeout": (14, "swapped"),
    "offered by preimage": (23, "swapped"),
    "received by revocation": (5, "swapped"),
    "received by success": (16, "swapped"),
    "received by timeout": (26, "swapped"),
    "funding": (0, ""),
    "three": (0, ""),
}
# The same for a path with as many items that the witness does not take.
OTHER_QUESTIONS = {
    "to_local by delay": (1, ""),
    "to_local by revocation": (6, ""),
    "offered by revocation": (23, "swapped"),
    "offered by preimage": (5, "swapped"),
    "received by revocation": (26, "swapped"),
    "received by timeout": (5, "swapped"),
}


def corrected_row(row: dict[str, Any], was: Any, why: str) -> dict[str, Any]:
    """A row whose answer was another one at first, and why that was wrong."""
    return {**row, "was": was, "why": why}


def clean_answer(way: str, relay: Any = ()) -> list[Any]:
    """A clean input. Its answer: path, counted opcodes, height, of each signature its key, and the rules of relay that
    it breaks.
    """
    of = WAYS[way]
    return ["clean", of.path, of.counted, of.height, dict(of.keys), list(relay)]


def stops(reason: str, opcode: int, stack: list[str], keys: dict[int, str | None]) -> list[Any]:
    """An input whose script stops."""
    return ["stops", reason, opcode, stack, keys]


def false_end(way: str, keys: dict[int, str | None] | None = None) -> list[Any]:
    """A signature is of no key, or empty: the run ends with false."""
    return stops("FalseEnd", WAYS[way].end, ["-"], void_keys(way) if keys is None else keys)


def void_keys(way: str) -> dict[int, None]:
    """Signatures over another digest are of no key."""
    return {item: None for item in WAYS[way].keys}


def bad_form(way: str, item: int) -> list[Any]:
    """One item in a signature's place is neither empty nor a signature."""
    keys = {k: v for k, v in WAYS[way].keys.items() if k != item}
    return stops("FailedCheck TokenForm", WAYS[way].check, WAYS[way].stack, keys)


def sequence_stop(keys: dict[int, str | None]) -> list[Any]:
    """CHECKSEQUENCEVERIFY of to_local."""
    return stops("FailedCheck Sequence", 4, ["push 3", "item 0"], keys)


def lock_time_stop(keys: dict[int, str | None], rest: Any = ("item 0",)) -> list[Any]:
    """CHECKLOCKTIMEVERIFY of a received HTLC."""
    return stops("FailedCheck LockTime", 24, ["push 23", "push 7"] + list(rest), keys)


def age_passes(version: int, sequence: int, delay_blocks: int) -> bool:
    """BIP 112, for a delay in blocks."""
    return version >= 2 and not sequence & 0x80400000 and sequence & 0xFFFF >= delay_blocks


def height_passes(lock_time: int, sequence: int, expiry_height: int) -> bool:
    """BIP 65, for a height."""
    return lock_time < 500000000 and expiry_height <= lock_time and sequence != 0xFFFFFFFF


def shifted_keys(keys: dict[int, str]) -> dict[int, str]:
    """The keys where one more item stands before all others."""
    moved = {}
    for item, key in keys.items():
        place = f"item {int(key[5:]) + 1}" if key and key.startswith("item ") else key
        moved[item + 1] = place
    return moved


def exchange_answers(
    way: str, lock_passes: bool
) -> list[tuple[int, int, list[dict[int, str] | int | list[str] | str]]]:
    """Of each way: two items of the witness, and the answer where they are exchanged."""
    keys = WAYS[way].keys
    table = {
        "to_local by delay": [(0, 1, stops("FalseEnd", 9, ["-"], {1: "push 6"}))],
        "to_local by revocation": [(0, 1, stops("FailedCheck TokenForm", 8, ["push 1", "item 0"], {1: "push 1"}))],
        "to_remote": [(0, 1, stops("FailedCheck Verify", 3, ["push 2", "hash 1", "item 1", "item 0"], {1: "item 0"}))],
        "key hash": [(0, 1, stops("FailedCheck Verify", 3, ["push 2", "hash 1", "item 1", "item 0"], {1: "item 0"}))],
        "offered by revocation": [(0, 1, stops("MissingOperand", 18, OFFERED_PAIR + ["item 0"], {1: "item 0"}))],
        "offered by preimage": [(0, 1, stops("MissingOperand", 18, OFFERED_PAIR + ["item 0"], {1: "push 7"}))],
        "offered by timeout": [
            (1, 2, stops("FalseEnd", 26, ["-"], {1: "push 16", 2: "push 7"})),
            (2, 3, stops("FalseEnd", 26, ["-"], {1: "push 7", 3: "push 16"})),
            (0, 1, stops("FailedCheck Extra", 18, OFFERED_PAIR + PAIR, {0: "push 7", 2: "push 16"})),
        ],
        "received by revocation": [
            (
                0,
                1,
                (
                    stops("FailedCheck TokenForm", 26, ["push 7", "item 0"], {1: "item 0"})
                    if lock_passes
                    else lock_time_stop({1: "item 0"})
                ),
            )
        ],
        "received by success": [
            (1, 2, stops("FalseEnd", 29, ["-"], {1: "push 18", 2: "push 7"})),
            (2, 3, lock_time_stop({1: "push 7", 3: "push 18"}, PAIR)),
            (0, 1, stops("FailedCheck Extra", 20, RECEIVED_PAIR + PAIR, {0: "push 7", 2: "push 18"})),
        ],
        "received by timeout": [(0, 1, stops("FalseEnd", 29, ["-"], {1: "push 7"}))],
    }
    if FAMILY[way] in table:
        return table[FAMILY[way]]
    check, taken = WAYS[way].check, WAYS[way].stack
    return [
        (1, 2, false_end(way, {1: keys[2], 2: keys[1]})),
        (0, 1, stops("FailedCheck Extra", check, taken, {0: keys[1], 2: keys[2]})),
        (0, 2, stops("FailedCheck Extra", check, taken, {0: keys[2], 1: keys[1]})),
    ]


def bottom_item_answer(way: str) -> list[Any]:
    """The answer where one more item stands before all others."""
    if FAMILY[way] == "to_remote":
        return ["stops", "NotTwoItems"]
    return stops("NotOneValue", WAYS[way].end, ["01", "item 0"], shifted_keys(WAYS[way].keys))


def top_item_answers(way: str, lock_passes: bool) -> list[tuple[str, list[Any]]]:
    """Of each way: one more item right before the script, and the answer. The 20 and the 32 bytes are unlike all
    hashes.
    """
    keys = dict(WAYS[way].keys)
    table = {
        "to_local by delay": [
            ("01", stops("NotOneValue", 9, ["-", "item 0"], keys)),
            ("", stops("NotOneValue", 9, ["-", "item 0"], keys)),
        ],
        "to_local by revocation": [
            ("", stops("FailedCheck Sequence", 4, ["push 3", "item 1", "item 0"], keys)),
            ("01", stops("FailedCheck TokenForm", 8, ["push 1", "item 1", "item 0"], keys)),
        ],
        "to_remote": [("", ["stops", "NotTwoItems"])],
        "key hash": [
            ("55" * 20, stops("FailedCheck Verify", 3, ["push 2", "hash 2", "item 2", "item 1", "item 0"], keys))
        ],
        "offered by revocation": [("", stops("MissingOperand", 18, OFFERED_PAIR + ["item 1", "item 0"], keys))],
        "offered by preimage": [("", stops("MissingOperand", 18, OFFERED_PAIR + ["item 1", "item 0"], keys))],
        "offered by timeout": [
            ("", stops("FailedCheck Extra", 18, OFFERED_PAIR + ["item 3"] + PAIR, keys)),
            ("55" * 32, stops("FailedCheck Verify", 22, ["push 21", "hash 4", "push 7", "item 3"] + PAIR, keys)),
        ],
        "received by revocation": [
            (
                "",
                (
                    stops("FailedCheck TokenForm", 26, ["push 7", "item 1", "item 0"], keys)
                    if lock_passes
                    else lock_time_stop(keys, ["item 1", "item 0"])
                ),
            )
        ],
        "received by success": [
            ("", lock_time_stop(keys, ["item 3"] + PAIR)),
            ("55" * 32, stops("FailedCheck Verify", 15, ["push 14", "hash 4", "push 7", "item 3"] + PAIR, keys)),
        ],
        "received by timeout": [("", stops("NotOneValue", 29, ["-", "item 0"], keys))],
    }
    if FAMILY[way] in table:
        return table[FAMILY[way]]
    taken = [at for at in WAYS[way].stack if at.startswith("push")]
    return [("", stops("FailedCheck Extra", WAYS[way].check, taken + ["item 3"] + PAIR, keys))]
