"""A node of Bitcoin on regtest, in a folder of its own and on loopback alone, which ends with its block. Tested, not
proved.
"""
import base64
import http.client
import json
import os
import socket
import subprocess
import tempfile
import time
from types import TracebackType
from typing import Any

from real.lib.errors import NotRun

PROGRAMS = ("bitcoind", "bitcoin-cli")
START_SECONDS, CALL_SECONDS, END_SECONDS = 60, 60, 20
# `-acceptnonstdtxn=0`: regtest takes what no node relays unless it is told not to
WORDS = ("-regtest", "-listen=0", "-dnsseed=0", "-fallbackfee=0.0001", "-acceptnonstdtxn=0", "-server=1")


class Answered(Exception):
    """What the node refuses, in its words."""


def has_node(folder: str) -> bool:
    """Whether a folder has the programs of a node."""
    return all(os.access(os.path.join(folder, it), os.X_OK) for it in PROGRAMS)


def free_port() -> int:
    with socket.socket() as found:
        found.bind(("127.0.0.1", 0))
        return int(found.getsockname()[1])


class Node:
    """A node that runs as long as its block does."""

    def __init__(self, folder: str) -> None:
        self.folder, self.port = folder, free_port()

    def __enter__(self) -> "Node":
        self.place = tempfile.TemporaryDirectory(prefix="regtest-")
        words = [f"-datadir={self.place.name}", f"-rpcport={self.port}", "-rpcbind=127.0.0.1", "-rpcallowip=127.0.0.1"]
        self.process = subprocess.Popen(
            [os.path.join(self.folder, PROGRAMS[0]), *WORDS, *words],
            stdin=subprocess.DEVNULL,
            stdout=subprocess.DEVNULL,
            stderr=subprocess.DEVNULL,
        )
        try:
            self.wait_for_start()
        except BaseException:
            self.stop()
            raise
        return self

    def __exit__(self, kind: type | None, error: BaseException | None, trace: TracebackType | None) -> None:
        self.stop()

    def stop(self) -> None:
        """Ends this node's process, and removes its folder."""
        self.process.terminate()
        try:
            self.process.wait(END_SECONDS)
        except subprocess.TimeoutExpired:
            self.process.kill()
            self.process.wait()
        self.place.cleanup()

    def wait_for_start(self) -> None:
        until = time.monotonic() + START_SECONDS
        while self.process.poll() is None and time.monotonic() < until:
            try:
                self.call("getblockcount")
                return
            except (OSError, http.client.HTTPException, Answered):
                time.sleep(0.1)
        raise NotRun(f"{self.folder}/{PROGRAMS[0]} does not start here")

    def call(self, method: str, *given: Any) -> Any:
        """What the node answers to a call."""
        return self.call_at("/", method, *given)

    def call_at(self, place: str, method: str, *given: Any) -> Any:
        """The same of one of its wallets."""
        with open(os.path.join(self.place.name, "regtest", ".cookie"), "rb") as file:
            pass_word = base64.b64encode(file.read()).decode()
        asked = http.client.HTTPConnection("127.0.0.1", self.port, timeout=CALL_SECONDS)
        try:
            asked.request(
                "POST", place, json.dumps({"method": method, "params": given}), {"Authorization": f"Basic {pass_word}"}
            )
            found = json.loads(asked.getresponse().read())
        finally:
            asked.close()
        if found["error"] is not None:
            raise Answered(found["error"]["message"])
        return found["result"]

    def height(self) -> int:
        return int(self.call("getblockcount"))

    def mine(self, count: int, program: bytes) -> None:
        """Mines blocks whose coinbases pay a program."""
        self.call("generatetodescriptor", count, self.call("getdescriptorinfo", f"raw({program.hex()})")["descriptor"])

    def refusal(self, raw: bytes) -> str | None:
        """Why the node does not take a transaction now; None where it would."""
        try:
            (found,) = self.call("testmempoolaccept", [raw.hex()])
        except Answered as why:
            return str(why)
        return None if found["allowed"] else str(found.get("reject-reason", "refused"))

    def send(self, raw: bytes) -> str:
        return str(self.call("sendrawtransaction", raw.hex()))

    def block_of(self, txid: str) -> int | None:
        """The height of the block that has a transaction, of the newest blocks; None where none has it."""
        height = self.height()
        for at in range(height, max(0, height - 3), -1):
            if txid in self.call("getblock", self.call("getblockhash", at))["tx"]:
                return at
        return None
