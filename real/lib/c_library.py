"""The paths of scripts, by the proved library for C where it is built here, and else by the program `trace`. How they
are asked is tested, not proved.

ENFORCE_LIBRARY names the shared library. Without it the one of out/library is taken, where `./enforce
--install-library out/library` put it.
"""
import os
import sys
from types import ModuleType
from typing import Any

TOP = os.path.dirname(os.path.dirname(os.path.dirname(os.path.abspath(__file__))))
INSTALLED = os.path.join(TOP, "out", "library", "lib", "libenforce.so")
# a fact whose constant is bytes, by its word
CONSTANTS = ("hash", "is")
NUMBERS = ("size", "lock", "age")


def binding() -> ModuleType | None:
    """The Python binding over a library that is here, or None."""
    library = os.environ.get("ENFORCE_LIBRARY") or INSTALLED
    if not os.path.exists(library):
        return None
    os.environ["ENFORCE_LIBRARY"] = library
    folder = os.path.join(TOP, "bindings", "python")
    if folder not in sys.path:
        sys.path.insert(0, folder)
    try:
        import enforce
    except (ImportError, OSError, AttributeError):  # there is none, or it is of other sources
        return None
    return enforce


def told_fact(fact: Any) -> dict[str, Any]:
    """A fact in the members of docs/TRACE.md that are looked at here."""
    value = fact.number if fact.word in NUMBERS else fact.constant.hex() or None if fact.word in CONSTANTS else None
    return {"kind": fact.word, "holds": fact.holds, "slots": list(fact.slots), "value": value}


def told_path(path: Any) -> dict[str, Any]:
    members = {"arity": path.arity, "counted": path.counted, "height": path.height, "lock": path.lock, "age": path.age}
    return {**members, "facts": [told_fact(it) for it in path.facts]}


def listing_of(enforce: Any, script: bytes) -> dict[str, Any]:
    """What is listed of a script, in the members of docs/TRACE.md that are looked at here."""
    try:
        return {"paths": [told_path(it) for it in enforce.paths(script)]}
    except enforce.Refused as refused:
        return {"refused": " ".join(str(it) for it in (refused.name, refused.number) if it is not None)}


def is_same(one: Any, other: Any) -> bool:
    """Whether the library tells of a script what `trace` tells, in the members that the library has."""
    if isinstance(one, dict):
        return all(name in other and is_same(value, other[name]) for name, value in one.items())
    if isinstance(one, list):
        return len(one) == len(other) and all(map(is_same, one, other))
    return one == other or one is None and other == ""
