"""Asks the proved judge about scripts and transactions: the program `trace`, and of the paths of scripts the library
for C, where it is built. How they are asked is tested, not proved.
"""
import json
import os
import subprocess
import sys
import tempfile
import threading
from collections import deque
from collections.abc import Callable, Sequence
from types import ModuleType
from typing import Any, TextIO

from real.lib import c_library
from real.lib.errors import NotRun, Refused
from real.lib.transaction import Output, Transaction

TOP = os.path.dirname(os.path.dirname(os.path.dirname(os.path.abspath(__file__))))
SECONDS = 900
# the most bytes that a call of the program reads, and its status where there is nothing to run
MAX_INPUT, NO_BUILD = 4_194_304, 3


def not_run(program: str, status: int, said: str) -> NotRun:
    """Why a program answers nothing; and what to call where it has no build, and says so."""
    if status != NO_BUILD:
        return NotRun(f"{program} answers no more, with status {status}")
    name = os.path.basename(program)
    return NotRun(
        f"./{name} has no build here ({said.strip()}): call ./{name} --build where the Rattle kit is on the path, then"
        f" ./{name} --install FOLDER, and copy real/ into that folder"
    )


class Lines:
    """A word of the program in a process of its own, which answers while it runs. What it says on standard error is
    handed on.
    """

    def __init__(self, program: str, words: Sequence[str], note: Callable[[str], None]) -> None:
        self.program, self.note, self.left = program, note, MAX_INPUT
        self.said = tempfile.TemporaryFile()
        try:
            self.process = subprocess.Popen(
                [program, *words], stdin=subprocess.PIPE, stdout=subprocess.PIPE, stderr=self.said
            )
        except OSError:
            raise NotRun(f"{program} does not run here") from None
        assert self.process.stdin is not None and self.process.stdout is not None
        self.given, self.answers = self.process.stdin, self.process.stdout
        self.timer = threading.Timer(SECONDS, self.process.kill)

    def ask(self, text: str) -> None:
        """Writes to the process. If it takes too long then, it is ended."""
        self.left -= len(text)
        self.timer.cancel()
        self.timer = threading.Timer(SECONDS, self.process.kill)
        self.timer.daemon = True
        self.timer.start()
        try:
            self.given.write(text.encode())
            self.given.flush()
        except OSError:
            pass  # it has ended, as the next answer says

    def answer(self) -> dict[str, Any]:
        """The object on the next line that it answers."""
        line = self.answers.readline()
        if not line.endswith(b"\n"):
            status, said = self.process.wait(), self.what_is_said()
            self.end(is_told=status != NO_BUILD)
            raise not_run(self.program, status, said)
        self.note(self.what_is_said())
        try:
            found = json.loads(line)
        except ValueError:
            found = None
        if not isinstance(found, dict):
            raise NotRun(f"{self.program} answers otherwise than docs/TRACE.md says")
        return found

    def what_is_said(self) -> str:
        """All that it said on standard error."""
        return os.pread(self.said.fileno(), MAX_INPUT, 0).decode(errors="replace")

    def end_input(self) -> None:
        """Says that there is nothing more to read."""
        try:
            self.given.close()
        except OSError:
            pass

    def end(self, is_told: bool = True) -> None:
        """Ends the process, which has nothing to read any more, and hands on what it said where that is not told."""
        self.timer.cancel()
        self.end_input()
        self.answers.close()
        self.process.wait()
        if is_told:
            self.note(self.what_is_said())
        self.said.close()


class Trace:
    """The program `trace`, in one process for each word, and the library for C, if there is one. What the program says
    on standard error, as that it is not proved, is passed on once.
    """

    def __init__(
        self, program: str = os.path.join(TOP, "trace"), notes: TextIO = sys.stderr, library: ModuleType | None = None
    ) -> None:
        self.program, self.notes = program, notes
        self.noted: set[str] = set()
        self.listed: dict[bytes, dict[str, Any]] = {}
        self.library = library or c_library.binding()
        self.judging: Lines | None = None
        # the scripts that are asked about, and not answered yet
        self.listing: Lines | None = None
        self.asked: deque[bytes] = deque()

    def note(self, said: str) -> None:
        for line in said.splitlines():
            if line not in self.noted:
                self.noted.add(line)
                print(line, file=self.notes)

    def ask_paths(self, scripts: Sequence[bytes]) -> None:
        """Asks what is listed of scripts, in this order. The answers are read when they are wanted."""
        while self.asked:
            self.read_listing()
        new = [it for it in dict.fromkeys(scripts) if it not in self.listed]
        if self.library or not new:
            self.listed.update({it: c_library.listing_of(self.library, it) for it in new})
            return
        self.listing = self.ask_program(new)
        self.asked.extend(new)

    def ask_program(self, scripts: Sequence[bytes]) -> Lines:
        """A process that lists scripts, each in its turn."""
        found = Lines(self.program, ["script"], self.note)
        found.ask("".join(f"{it.hex()}\n" for it in scripts))
        found.end_input()
        return found

    def by_program(self, scripts: Sequence[bytes]) -> list[dict[str, Any]]:
        """What the program lists of scripts."""
        asked = self.ask_program(scripts)
        found = [asked.answer() for _ in scripts]
        asked.end()
        return found

    def read_listing(self) -> None:
        """Reads what is listed of the next script that was asked about."""
        assert self.listing is not None
        self.listed[self.asked[0]] = self.listing.answer()
        self.asked.popleft()
        if not self.asked:
            self.listing.end()

    def paths(self, scripts: Sequence[bytes]) -> list[dict[str, Any]]:
        """What is listed of each script. A script is asked about once."""
        if any(it not in self.listed and it not in self.asked for it in scripts):
            self.ask_paths(scripts)
        while any(it not in self.listed for it in scripts):
            self.read_listing()
        return [self.listed[it] for it in scripts]

    def start(self) -> None:
        """Starts the judge, which gets ready while something else is asked."""
        self.judging = self.judging or Lines(self.program, ["witness", "--lines"], self.note)

    def witness(self, transaction: Transaction, spent: Sequence[Output]) -> list[dict[str, Any]]:
        """What becomes of each input of a transaction whose witnesses have tokens."""
        outputs = "".join(f";{it.value} {it.program.hex()}" for it in spent)
        text = f"{transaction.bytes().hex()}{outputs}\n"
        if self.judging and self.judging.left < len(text):
            self.judging.end()
            self.judging = None
        self.start()
        assert self.judging is not None
        self.judging.ask(text)
        found = [self.judging.answer()]
        if "input" not in found[0]:
            raise Refused(found[0].get("refused", "NoAnswer"))
        return found + [self.judging.answer() for _ in spent[1:]]


def built_program(command: str = "trace") -> str:
    """The program that ./trace or ./spend runs now, without its look at the sources before each call. For tests, which
    call it often.
    """
    wrapper = os.path.join(TOP, command)
    try:
        subprocess.run([wrapper, "script", "51"], capture_output=True, timeout=SECONDS)
        told = subprocess.run([wrapper, "--version"], capture_output=True, text=True, timeout=SECONDS).stdout
    except (OSError, subprocess.TimeoutExpired):
        raise NotRun(f"{wrapper} does not run here") from None
    found = dict(it.partition(" ")[::2] for it in told.splitlines())
    name = f"{found.get('sources')}.{found.get('kit', '').replace(' ', '_')}"
    program = os.path.join(TOP, "out", command, "proved" if found.get("proved") == "yes" else "unproved", name)
    return program if os.path.exists(program) else wrapper
