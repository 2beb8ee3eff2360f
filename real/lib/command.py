"""How a tool of this folder begins and ends: its input, its words, and its status. Tested, not proved."""
import os
import sys
from collections.abc import Callable, Iterable
from typing import Literal

from real.lib.curve import AnyCurve, Curve, Recorded
from real.lib.errors import NotRun, Refused

REFUSED, WRONG_WORDS, NOT_RUN, LEFT = 1, 2, 3, 4
MAX_INPUT = 4_194_304


def read_input() -> bytes:
    """All of standard input, within its limit."""
    if sys.stdin is None:
        raise Refused("ReadFailed")
    try:
        data = sys.stdin.buffer.read(MAX_INPUT + 1)
    except OSError:
        raise Refused("ReadFailed") from None
    if len(data) > MAX_INPUT:
        raise Refused("TooLong")
    return data


def say_notes(notes: Iterable[str]) -> None:
    """Notes on standard error. Where that can't be written, nothing else changes."""
    try:
        for it in notes:
            print(f"note: {it}", file=sys.stderr, flush=True)
    except OSError:
        pass


def curve_of(record: str | None, instead: str) -> AnyCurve:
    """The library; or the record, with a line that says what is not done instead."""
    if record is None:
        return Curve()
    found = Recorded.read(record)
    print(f"real: signatures are looked up in {record}, and not {instead}", file=sys.stderr)
    return found


def record_of(words: list[str]) -> str | Literal[False] | None:
    """The record that the last words name: None where there are none, False where they are others."""
    if not words:
        return None
    return words[1] if len(words) == 2 and words[0] == "--recorded" else False


def help_or_usage(words: list[str], text: str | None, usage: str) -> int:
    """The help, or the usage for wrong words, with the status."""
    if words == ["--help"]:
        return ends(lambda: print(text, end="") or 0)
    print(usage, file=sys.stderr)
    return WRONG_WORDS


def ends(run: Callable[[], int], refusal: Callable[[Refused], str] = "refused {}".format) -> int:
    """Runs a tool to its end, and gives its status. A refusal is one line on standard output, with its note on
    standard error; a failed write is a line there, unless nobody reads any more.
    """
    if sys.stdout is None:
        return REFUSED
    try:
        try:
            status = run()
        except Refused as why:
            print(refusal(why))
            say_notes([why.note] if why.note else [])
            status = REFUSED
        except NotRun as why:
            print(f"real: not run: {why}", file=sys.stderr)
            status = NOT_RUN
        except MemoryError:
            print("real: not run: memory ran out", file=sys.stderr)
            status = NOT_RUN
        sys.stdout.flush()
        return status
    except OSError as why:
        # what is left in the buffer can't be written either
        os.dup2(os.open(os.devnull, os.O_WRONLY), sys.stdout.fileno())
        if not isinstance(why, BrokenPipeError):
            say_notes([f"standard output can't be written: {why.strerror}"])
        return REFUSED
