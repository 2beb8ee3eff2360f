"""Closes of channels on a node: what the tools of this folder print has to be taken, mined before its deadline, and
refused with any one byte changed. Tested, not proved.
"""
import json
import os
import subprocess
import urllib.parse
from collections.abc import Sequence
from dataclasses import asdict
from typing import Any

from real.lib import commitment, judge_input
from real.lib.command import LEFT
from real.lib.commitment import ANCHORS, STATIC_REMOTEKEY, Htlc
from real.lib.curve import Curve
from real.lib.errors import Refused
from real.lib.trace_program import SECONDS, TOP, Trace
from real.lib.transaction import Input, Output, Transaction, hash160, read_transaction, sha256
from real.tests.node import Answered, Node
from real.tests.node_channels import (
    Coin,
    Party,
    commitment_of,
    htlc_script,
    outpoint_of,
    second_stage,
    secret_of,
    sign_coin,
)

DELAY, COIN_SAT, DESTINATION = 30, 30_000, b"\x00\x14" + b"\xc7" * 20
# the feerate of HTLC transactions without anchors
FEERATE = 1_000
BASE58 = "123456789ABCDEFGHJKLMNPQRSTUVWXYZabcdefghijkmnopqrstuvwxyz"
# coinbases can be spent after a hundred blocks
MATURITY = 101
REVOKED = ("at once", "as one", "second stages")
CLOSED = ("own", "peer's newest", "peer's next")
# a funding output that is spent by a partially signed transaction, and where its keys come from
SHARED, ORIGIN = "shared", "[d34db33f/48h/1'/7]"


def run_tool(words: Sequence[str], given: str) -> str:
    """What a tool prints; it has to end with status 0."""
    ran = subprocess.run(
        [os.path.join(TOP, words[0]), *words[1:]], input=given, capture_output=True, text=True, timeout=SECONDS
    )
    if ran.returncode not in (0, LEFT):
        raise Refused(f"{' '.join(words)}: status {ran.returncode}: {ran.stdout[-200:]} {ran.stderr[-200:]}")
    return ran.stdout


def htlcs_of(party: Party) -> list[dict[str, Any]]:
    """The HTLCs of a channel, as the programs read them."""
    return [
        {
            "direction": "offered" if it.is_offered else "received",
            "hash": it.payment_hash.hex(),
            "expiry_height": it.expiry_height,
        }
        for it, _ in party.htlcs
    ]


def wanted_of_close(party: Party, whose: str) -> tuple[list[str], list[str]]:
    """Which outputs of a commitment have claims, and the names of the others (BOLTs 3 and 5)."""
    htlcs = ["offered" if it.is_offered else "received" for it, _ in party.htlcs]
    mine, other = ("to_local", "to_remote") if whose == CLOSED[0] else ("to_remote", "to_local")
    if not party.is_anchored:
        return sorted([mine, *htlcs]), [other]
    anchors = ["own_anchor", "peer_anchor"]
    if whose == CLOSED[0]:
        return [mine], sorted([other, *anchors, *htlcs])
    return sorted(htlcs), sorted([mine, other, *anchors])


class Closes:
    """A node with channels, and how much of what was printed it takes."""

    def __init__(self, node: Node) -> None:
        self.node, self.curve, self.trace = node, Curve(), Trace()
        self.taken = self.refused = self.differ = 0
        self.parties: dict[str, Party] = {}
        self.fundings: dict[str, bytes] = {}
        self.coins: list[Coin] = []

    def check(self, holds: bool, what: str) -> None:
        if not holds:
            self.differ += 1
            print(f"differs: {what}", flush=True)

    def report(self) -> str:
        return f"regtest: {self.taken} taken, {self.refused} refused as they should be, {self.differ} differ"

    def open_channels(self) -> None:
        """Mines coins, and pays all funding outputs and the coins that owners add with anchors."""
        private = secret_of("coins")
        program = b"\x00\x14" + hash160(self.curve.public_key(private))
        self.node.mine(MATURITY, program)
        for kind in (STATIC_REMOTEKEY, ANCHORS):
            for name in (*REVOKED, *CLOSED):
                self.parties[f"{kind}, {name}"] = self.party(f"{kind}, {name}", kind)
        self.parties[SHARED] = self.party(SHARED, STATIC_REMOTEKEY)
        parties = list(self.parties.values())
        outputs = [
            Output(it.capacity_sat(), commitment.program_of(it.funding_script(self.curve))) for it in parties
        ] + [Output(COIN_SAT, program)] * 8
        block = self.node.call("getblock", self.node.call("getblockhash", 1), 2)
        before = block["tx"][0]
        value = round(before["vout"][0]["value"] * 10**8)
        paid = value - sum(it.value for it in outputs) - 10_000
        coin = Coin(bytes.fromhex(before["txid"])[::-1] + bytes(4), value, private)
        made = Transaction(2, [Input(coin.outpoint, b"", 0xFFFFFFFE)], [*outputs, Output(paid, program)], 0)
        sign_coin(self.curve, made, 0, coin)
        self.node.send(made.bytes())
        self.node.mine(1, DESTINATION)
        self.fundings = {it.name: outpoint_of(made, at) for at, it in enumerate(parties)}
        self.coins = [Coin(outpoint_of(made, len(parties) + at), COIN_SAT, private) for at in range(8)]

    def party(self, name: str, kind: str) -> Party:
        """A channel with HTLCs both ways."""
        htlcs = []
        for at in range(4):
            preimage = sha256(f"preimage {at} of {name}".encode())
            htlcs.append((Htlc(at % 2 == 0, sha256(preimage), 0), preimage))
        return Party(name, kind, DELAY, htlcs)

    def close(self, party: Party) -> Transaction:
        """Broadcasts the commitment of a channel, whose HTLCs expire soon."""
        height = self.node.height()
        for at, (it, _) in enumerate(party.htlcs):
            it.expiry_height = height + 60 + 2 * at
        made = commitment_of(self.curve, party, self.fundings[party.name])
        self.node.send(made.bytes())
        return made

    def state_of(self, party: Party, seen: Transaction, confirmed: int | None, spent: list[int]) -> dict[str, Any]:
        """The revoked state that a tower has of a channel, with what it sees."""
        return {
            "channel_type": party.channel_type,
            "transaction": seen.bytes().hex(),
            "secret": party.secret.hex(),
            "delay_blocks": party.delay_blocks,
            "htlcs": htlcs_of(party),
            "bases": {name: it.hex() for name, it in party.bases(self.curve).items()},
            "funding_keys": [it.hex() for it in party.funding_keys(self.curve)],
            "destination": DESTINATION.hex(),
            "feerate_per_kw": 500,
            "height": self.node.height(),
            "confirmed_height": confirmed,
            "spent": spent,
        }

    def penalties(
        self, party: Party, seen: Transaction, confirmed: int | None, spent: list[int], words: Sequence[str] = ()
    ) -> list[dict[str, Any]]:
        """What real/revoked prints."""
        state = json.dumps(self.state_of(party, seen, confirmed, spent))
        privates = [party.privates[it].hex() for it in ("revocation", "payment")]
        printed = run_tool(["real/revoked", *words], "\n".join([state, *privates]) + "\n")
        return [json.loads(it) for it in printed.splitlines()]

    def is_clean(self, raw: bytes, spent: list[Output]) -> bool:
        """What real/judge says of bytes: that each input is clean, and breaks no rule of relay."""
        try:
            made = read_transaction(raw)
            if len(made.inputs) != len(spent):
                return False
            whole, *told = judge_input.answers_of(made, list(spent), {}, self.curve, self.trace)
        except Refused:
            return False
        return not whole["faults"] and all(it["answer"] == "clean" and not it["relay"] for it in told)

    def try_changes(self, name: str, raw: bytes, spent: list[Output]) -> None:
        """With any one byte changed the node refuses it, and so does the judge."""
        for place in range(len(raw)):
            other = raw[:place] + bytes([raw[place] ^ 1]) + raw[place + 1 :]
            refusal = self.node.refusal(other)
            self.check(refusal is not None, f"{name}: byte {place} changed: the node takes it")
            self.check(not self.is_clean(other, spent), f"{name}: byte {place} changed: real/judge says clean")
            self.refused += refusal is not None

    def give(self, name: str, raw: bytes, spent: list[Output]) -> None:
        """The node takes a transaction, as the judge does."""
        self.try_changes(name, raw, spent)
        self.check(self.is_clean(raw, spent), f"{name}: real/judge does not find it clean")
        try:
            self.node.send(raw)
            self.taken += 1
        except Answered as why:
            self.check(False, f"{name}: the node refuses it: {why}")

    def give_penalties(
        self, name: str, found: list[dict[str, Any]], seen: Transaction, kinds: list[str], count: int
    ) -> None:
        """The node takes all penalties, and a block has each before its deadline."""
        height, told = self.node.height(), [it for it in found[:-1] if it["answer"] == "taken"]
        for it in told:
            spent = [seen.outputs[at] for at in it["outputs"]]
            self.give(f"{name}, {it['kinds']}", bytes.fromhex(it["transaction"]), spent)
        self.node.mine(1, DESTINATION)
        for it in told:
            last = height + max(1, it["deadline_blocks"] or 1)
            block = self.node.block_of(it["txid"])
            self.check(block is not None and block <= last, f"{name}: mined in {block}, and not by {last}")
        self.check(sorted(kind for it in told for kind in it["kinds"]) == sorted(kinds), f"{name}: {found}")
        self.check(sum(len(it["outputs"]) for it in told) == count, f"{name}: {len(told)} taken, and not {count}")

    def kinds_of(self, party: Party) -> list[str]:
        remote = [] if party.is_anchored else ["to_remote"]
        return ["to_local", *remote, *("offered" if it.is_offered else "received" for it, _ in party.htlcs)]

    def revoke(self, kind: str) -> None:
        """Revoked commitments: penalties at once, as one after a block, and on HTLC transactions."""
        party = self.parties[f"{kind}, at once"]
        seen, kinds = self.close(party), self.kinds_of(party)
        self.give_penalties(party.name, self.penalties(party, seen, None, []), seen, kinds, len(kinds))
        party = self.parties[f"{kind}, as one"]
        seen = self.close(party)
        self.node.mine(1, DESTINATION)
        found = self.penalties(party, seen, self.node.height(), [], ["--one"])
        self.give_penalties(party.name, found, seen, kinds, len(kinds))
        if party.is_anchored:
            self.take_remote(party, found, seen)
        self.revoke_second_stages(self.parties[f"{kind}, second stages"])

    def revoke_second_stages(self, party: Party) -> None:
        """The owner's HTLC transactions are in a block, and then the penalties on their outputs are."""
        seen = self.close(party)
        self.node.mine(1, DESTINATION)
        confirmed = self.node.height()
        programs = [
            commitment.program_of(htlc_script(party.keys(self.curve), it, party.is_anchored)) for it, _ in party.htlcs
        ]
        gone = [next(i for i, it in enumerate(seen.outputs) if it.program == program) for program in programs]
        kinds = [it for it in self.kinds_of(party) if it in ("to_local", "to_remote")]
        found = self.penalties(party, seen, confirmed, sorted(gone))
        self.give_penalties(f"{party.name}, of the commitment", found, seen, kinds, len(kinds))
        expiry = max(it.expiry_height for it, _ in party.htlcs)
        self.node.mine(max(0, expiry - self.node.height()), DESTINATION)
        stages = []
        for at in range(len(party.htlcs)):
            coin = self.coins.pop() if party.is_anchored else None
            stages.append(second_stage(self.curve, party, seen, at, coin))
            self.node.send(stages[-1].bytes())
        self.node.mine(1, DESTINATION)
        for at, stage in enumerate(stages):
            found = self.penalties(party, stage, self.node.height(), [])
            self.give_penalties(f"{party.name}, HTLC {at}", found, stage, ["to_local"], 1)

    def close_request(self, party: Party, seen: Transaction, whose: str) -> dict[str, Any]:
        """What `spend close` is asked of a transaction in the newest block."""
        keys, funding = party.keys(self.curve), party.funding_keys(self.curve)
        return {
            "channel_type": party.channel_type,
            "whose": "own" if whose == CLOSED[0] else "peer",
            "keys": {name: it.hex() for name, it in asdict(keys).items()},
            "delay_blocks": party.delay_blocks,
            "feerate_per_kw": FEERATE,
            "funding_keys": {name: it.hex() for name, it in zip(("own", "peer"), funding)},
            "htlcs": htlcs_of(party),
            "preimages": [it.hex() for _, it in party.htlcs],
            "transaction": seen.bytes().hex(),
            "confirmed_height": self.node.height(),
        }

    def claims_of_close(self, party: Party, seen: Transaction, whose: str) -> tuple[list[dict[str, Any]], list[str]]:
        """What `spend close` lets one claim of a transaction, and the names of the other outputs."""
        found = json.loads(run_tool(["spend", "close"], json.dumps(self.close_request(party, seen, whose))))
        return found["claims"], sorted(it["name"] for it in found["others"])

    def keys_of(self, party: Party, whose: str) -> dict[str, bytes]:
        """One's own private keys at a commitment, by their public keys."""
        names = ("owner_delayed", "owner_htlc") if whose == CLOSED[0] else ("htlc",)
        found = [party.private_at_point(self.curve, it) for it in names]
        if whose != CLOSED[0]:
            found.append(party.privates["payment"])
        return {self.curve.public_key(it).hex(): it for it in found}

    def spend(self, party: Party, claim: dict[str, Any], private: bytes) -> bytes:
        """What `spend`, real/psbt and real/sign make of a claim."""
        request = {
            "outputs": [claim],
            "preimages": [it.hex() for _, it in party.htlcs],
            "destination": DESTINATION.hex(),
            "feerate_per_kw": 500,
        }
        plan = run_tool(["spend"], json.dumps(request))
        signed = run_tool(["real/sign"], run_tool(["real/psbt", "make"], plan) + private.hex() + "\n")
        return bytes.fromhex(run_tool(["real/psbt", "finish"], plan + signed).split("\n")[0])

    def htlc_transaction(self, party: Party, claim: dict[str, Any], private: bytes) -> bytes:
        """One's own HTLC transaction: both sides sign the digest that the claim's token has."""
        top, _, token, last = (bytes.fromhex(given) for _, given in claim["slots"])
        preimages = {it.payment_hash: preimage for it, preimage in party.htlcs}
        peer = party.private_at_point(self.curve, "htlc")
        self.check(token[:33] == self.curve.public_key(peer), f"{party.name}: the key of the peer's token")
        peers, own = (self.curve.sign(it, token[33:65]) + token[65:] for it in (peer, private))
        made = read_transaction(bytes.fromhex(claim["shell"]), marked=False)
        made.inputs[0].witness = [last, peers, own, preimages.get(top, top), bytes.fromhex(claim["script"])]
        return made.bytes()

    def give_claim(self, party: Party, told: dict[str, Any], whose: str) -> Transaction:
        """A claim is refused in the block before its first one, and taken then: what was mined."""
        claim, first, last = told["output"], told["from_height"], told["deadline_height"]
        private = self.keys_of(party, whose)[next(given for kind, given in claim["slots"] if kind == "sig")]
        raw = (self.htlc_transaction if claim["shell"] else self.spend)(party, claim, private)
        where = f"{party.name}, {told['kind']} {claim['outpoint'][-2:]}"
        # the next block is the one before the first that may have it
        self.node.mine(max(0, first - self.node.height() - 2), DESTINATION)
        if first > self.node.height() + 1:
            refusal = self.node.refusal(raw) or ""
            self.check("final" in refusal, f"{where}: a block too early: {refusal or 'the node takes it'}")
            self.refused += "final" in refusal
            self.node.mine(1, DESTINATION)
        self.give(where, raw, [Output(claim["value"], bytes.fromhex(claim["program"]))])
        self.node.mine(1, DESTINATION)
        made, height = read_transaction(raw), self.node.height()
        self.check(self.node.block_of(made.txid()) == height, f"{where}: not mined")
        self.check(last is None or height < last or last <= first, f"{where}: mined in {height}, and not before {last}")
        return made

    def close_unrevoked(self, kind: str, whose: str) -> None:
        """A commitment that is not revoked: all that `spend close` lets one claim of it is taken, and then the outputs
        of one's own HTLC transactions.
        """
        party = self.parties[f"{kind}, {whose}"]
        seen = self.close(party)
        self.node.mine(1, DESTINATION)
        due, names = self.claims_of_close(party, seen, whose)
        kinds, named = wanted_of_close(party, whose)
        self.check(sorted(it["kind"] for it in due) == kinds, f"{party.name}: claims {due}")
        self.check(names == named, f"{party.name}: others {names}")
        while due:
            due.sort(key=lambda it: it["from_height"])
            told = due.pop(0)
            made = self.give_claim(party, told, whose)
            if told["output"]["shell"]:
                found, names = self.claims_of_close(party, made, whose)
                self.check([it["kind"] for it in found] == ["to_local"] and not names, f"{party.name}: {found}")
                due += found

    def combine(self) -> None:
        """A funding output is spent by two signers, one after the other: what real/psbt makes, combines and finalizes
        is what the node decodes, combines and finalizes.
        """
        party = self.parties[SHARED]
        script, funding = party.funding_script(self.curve), self.fundings[SHARED]
        keys = sorted(party.funding_keys(self.curve))
        claim = {
            **{"outpoint": f"{funding[:32].hex()}:{int.from_bytes(funding[32:], 'little')}", "path": 0},
            **{"program": commitment.program_of(script).hex(), "script": script.hex(), "shell": None},
            **{"slots": [["sig", keys[1].hex()], ["sig", keys[0].hex()], ["exact", ""]], "value": party.capacity_sat()},
        }
        request = {"outputs": [claim], "preimages": [], "destination": DESTINATION.hex(), "feerate_per_kw": 500}
        plan = run_tool(["spend"], json.dumps(request))
        made = run_tool(["real/psbt", "make", "--origin", f"{ORIGIN}{keys[0].hex()}"], plan)
        (told,) = self.node.call("decodepsbt", made.strip())["inputs"]
        wanted = [{"pubkey": keys[0].hex(), "master_fingerprint": "d34db33f", "path": "m/48h/1h/7"}]
        found = [{**it, "path": it["path"].replace("'", "h")} for it in told.get("bip32_derivs", [])]
        self.check(found == wanted, f"{SHARED}: the node decodes {found}")
        signed = [run_tool(["real/sign"], f"{made}{party.privates[f'funding {it}'].hex()}\n") for it in range(2)]
        combined = run_tool(["real/psbt", "combine"], "".join(signed)).strip()
        others = self.node.call("combinepsbt", [it.strip() for it in signed])
        self.check(combined == others, f"{SHARED}: the node combines {others}, and not {combined}")
        final = run_tool(["real/psbt", "finalize"], combined + "\n").strip()
        raw = run_tool(["real/psbt", "finish"], plan + combined + "\n").split("\n")[0]
        for given in (combined, final):
            extracted = self.node.call("finalizepsbt", given)
            self.check(extracted == {"hex": raw, "complete": True}, f"{SHARED}: the node extracts {extracted}")
        self.give(SHARED, bytes.fromhex(raw), [Output(claim["value"], bytes.fromhex(claim["program"]))])
        self.node.mine(1, DESTINATION)

    def take_remote(self, party: Party, told: list[dict[str, Any]], seen: Transaction) -> None:
        """The node's wallet takes to_remote of a channel with anchors by the descriptor that real/revoked prints."""
        first = told[0]
        (at,) = first["outputs"]
        private = bitcoin_wif(party.privates["payment"])
        key = self.curve.public_key(party.privates["payment"]).hex()
        described = self.node.call("getdescriptorinfo", first["descriptor"].replace(key, private))
        descriptor = f"{first['descriptor'].replace(key, private)}#{described['checksum']}"
        self.node.call("createwallet", party.name, False, True)
        wallet = f"/wallet/{urllib.parse.quote(party.name)}"
        (done,) = self.node.call_at(wallet, "importdescriptors", [{"desc": descriptor, "timestamp": 0}])
        self.check(done["success"], f"{party.name}: the wallet imports {done}")
        inputs = [{"txid": seen.txid(), "vout": at, "sequence": 1}]
        paid = [{self.node.call("deriveaddresses", self.described(DESTINATION))[0]: (first["value"] - 1_000) / 10**8}]
        made = self.node.call("createpsbt", inputs, paid)
        signed = self.node.call_at(wallet, "walletprocesspsbt", made)
        self.check(signed["complete"], f"{party.name}: the wallet signs to_remote")
        raw = bytes.fromhex(signed["hex"])
        refusal = self.node.refusal(raw)
        self.check(refusal is None, f"{party.name}: to_remote by the wallet: {refusal}")
        self.taken += refusal is None
        self.node.send(raw)

    def described(self, program: bytes) -> str:
        return str(self.node.call("getdescriptorinfo", f"raw({program.hex()})")["descriptor"])


def bitcoin_wif(private: bytes) -> str:
    """A private key as wallets of test networks write it, of a compressed public key."""
    data = b"\xef" + private + b"\x01"
    number, found = int.from_bytes(data + sha256(sha256(data))[:4], "big"), ""
    while number:
        number, digit = divmod(number, 58)
        found = BASE58[digit] + found
    return found


def run(folder: str) -> tuple[str, int]:
    """All closes on the node of a folder: the last line, and how many differ."""
    with Node(folder) as node:
        closes = Closes(node)
        closes.open_channels()
        closes.combine()
        for kind in (STATIC_REMOTEKEY, ANCHORS):
            closes.revoke(kind)
        for kind in (STATIC_REMOTEKEY, ANCHORS):
            for whose in CLOSED:
                closes.close_unrevoked(kind, whose)
        return closes.report(), closes.differ
