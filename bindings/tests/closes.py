"""What callers of the library for C ask of commitments that are not revoked, and what the answers have to be. It is told from the scripts of BOLT 3's appendix C, as oracles/revoked.py tells it; one's own HTLC transactions
and their digests are worked out by real/lib/transaction.py (BIP 143, BIP 144), and compared with the appendix's. No program of this repository is asked.

The heights are worked out here from BOLT 3: the owner has to_local after its delay, and an HTLC by its HTLC transaction, where there are no anchors; the peer has to_remote at once and an HTLC with the preimage, or above
the expiry. With anchors the peer waits for one block more, and to_remote and one's own HTLCs are not claimed.
"""
import hashlib
import os
import sys

sys.dont_write_bytecode = True
TOP = os.path.dirname(os.path.dirname(os.path.dirname(os.path.abspath(__file__))))
sys.path.insert(0, TOP)
import revocations
from revocations import KINDS, LAST, OWNERS, PEERS, revoked

from real.lib.transaction import Digests, Input, Output, Transaction

OWN, PEER, HEIGHT = 1, 2, 501
PREIMAGES = [bytes([it["id"]] * 32).hex() for it in revoked.APPENDIX["htlcs"]]
WEIGHTS = {"offered": 663, "received": 703}
FEERATE = 647


class Asked:
    """What is asked of a row: whose commitment it is, its feerate, the preimages that are known, and the height of the block."""

    def __init__(self, row, whose, preimages=tuple(PREIMAGES), feerate=FEERATE, height=HEIGHT):
        self.row, self.whose, self.preimages, self.feerate, self.height = row, whose, preimages, feerate, height
        self.hashes = {hashlib.sha256(bytes.fromhex(it)).hexdigest() for it in preimages}
        self.waits = int(row.values["type"] == "anchors")

    def line(self, whose=None, tx=None, **words):
        commitment = revocations.commitment_words(self.row, OWNERS if self.whose == OWN else PEERS, **words)
        preimages = ",".join(self.preimages) or "-"
        return f"close {whose or self.whose} {commitment} {self.feerate} {preimages} {self.row.tx if tx is None else tx or '-'} {self.height}"

    def htlcs(self, output):
        """The HTLCs that an output may be: of offered ones nothing tells which expiry it has."""
        own, found = revoked.htlc_of(output["htlc"]), []
        for it in self.row.htlcs:
            if revoked.same_script(own, it) and it not in found:
                found.append(it)
        return found

    def fixed(self, index, output, htlc):
        """One's own HTLC transaction without witnesses, and the digest of both its signatures."""
        direction, _, expiry = htlc
        values, value = self.row.values, output["value_sat"]
        delay = commitment_number(values["delay"])
        to_local = bytes.fromhex(f"6321{values['revocation']}67{delay}b27521{values['delayed']}68ac")
        paid = Output(max(0, value - WEIGHTS[direction] * self.feerate // 1000), b"\0\x20" + hashlib.sha256(to_local).digest())
        place = Input(bytes.fromhex(self.row.txid) + index.to_bytes(4, "little"), b"", 0, [])
        whole = Transaction(2, [place], [paid], expiry if direction == "offered" else 0)
        return whole.bytes().hex(), Digests(whole).digest_of(0, bytes.fromhex(output["witness_script"]), value).hex()

    def claims(self, index, output):
        """The claims on an output: from which block on, the first in which the other side can take it, the path, and its slots."""
        row, kind, now, keys = self.row, output["kind"], self.height, self.row.values
        if not row.is_claimed(output):
            return []
        if kind == "to_local":
            return [(now + keys["delay"], "-", 1, f"e=-,s={keys['delayed']}")] if self.whose == OWN else []
        if kind == "to_remote":
            return [(now, "-", 0, f"e={keys['remote']},s={keys['remote']}")] if self.whose == PEER else []
        htlcs, waits = self.htlcs(output), now + self.waits
        _, payment_hash, expiry = htlcs[0]
        paid = kind == ("received" if self.whose == OWN else "offered")
        if paid and payment_hash not in self.hashes:
            return []
        item = f"p={payment_hash}" if paid else "e=-"
        if self.whose == PEER:
            from_height = waits if paid else max(waits, expiry + 1)
            return [(from_height, revocations.owner_height(row, output, now), 2, f"{item},s={keys['remote_htlc']}")]
        if self.waits:
            return []
        found = []
        for it in htlcs:
            tx, digest = self.fixed(index, output, it)
            given = f"g={keys['remote_htlc']}:{digest}:{tx}"
            found.append((now if paid else max(now, it[2] + 1), max(now, expiry + 1) if paid else now, 1, f"{item},s={keys['local_htlc']},{given},e=-"))
        return found

    def answer(self):
        lines, others = [], ["others"]
        for index, it in enumerate(self.row.outputs):
            claims = self.claims(index, it)
            script = it.get("witness_script") or "76a914" + it["script_pubkey"][4:] + "88ac"
            for from_height, deadline, path, slots in claims:
                place = f"{script}/{it['script_pubkey']}/{self.row.txid}/{index}/{it['value_sat']}/{path}/{slots}"
                lines.append(f"found {KINDS[it['kind']]} {from_height} {deadline} {place}\n")
            if not claims:
                others.append(revocations.other_text(self.row, index, it, OWNERS if self.whose == OWN else PEERS))
        return "".join(lines) + " ".join(others) + "\n"


def commitment_number(value):
    """The push of a number (BIP 62)."""
    if value == 0:
        return "00"
    if value <= 16:
        return f"{0x50 + value:02x}"
    spelt = value.to_bytes(value.bit_length() // 8 + 1, "little")
    return f"{len(spelt):02x}{spelt.hex()}"


def of_appendix():
    """Each case of the appendix as one's own, at its feerate: its HTLC transactions and digests stand in the answer."""
    found = {}
    for case in revoked.APPENDIX["cases"]:
        row = revoked.Row(revoked.OWN, case["unsigned_tx_no_witness"], case["txid_hash_order"], case["outputs"], [revoked.htlc_of(it) for it in case["htlcs_given"]])
        asked = Asked(row, OWN, feerate=case["feerate_per_kw"])
        told = asked.answer()
        for it in case["htlc_transactions"]:
            if f"{it['bip143_digest']}:{it['unsigned_tx_no_witness']}," not in told:
                raise SystemExit(f"closes: not the transaction of the appendix: {it['unsigned_tx_no_witness']}")
        found[asked.line()] = told
    return found


def refused(row):
    """What is refused for the first of its faults: whose commitment it is comes first."""
    asked, bad_key = Asked(row, OWN), "04" + row.values["delayed"][2:]
    faults = {
        asked.line(whose="0", type=0): "NoSuchClose",
        asked.line(whose="3", tx=""): "NoSuchClose",
        asked.line(whose="4294967295"): "NoSuchClose",
        asked.line(type=3, delayed=bad_key): "NoSuchChannelType",
        asked.line(delayed=bad_key, tx=""): "NotACommitmentKey 1",
        asked.line(own_funding=OWNERS[0], peers_funding=bad_key, tx=""): "NotACommitmentKey 6",
        asked.line(tx=row.tx[:-2]): "TruncatedTransaction",
        asked.line(tx=row.tx + "00"): "Trailing",
    }
    return {line: f"refused {word}\n" for line, word in faults.items()}


def wanted_answers():
    """Each line that callers read, with what they must print."""
    rows = list(revoked.rows())
    asked = [Asked(row, whose) for row in rows for whose in (OWN, PEER)]
    for row in (next(it for it in rows if len(it.outputs) == 7), next(it for it in rows if it.channel_type == "anchors")):
        direction, payment_hash, expiry = next(it for it in row.htlcs if it[0] == "offered")
        twice = revocations.row_with(row, [*row.htlcs, (direction, payment_hash, expiry + 90), (direction, payment_hash, 1)])
        for whose in (OWN, PEER):
            asked += [Asked(row, whose, preimages=()), Asked(row, whose, preimages=PREIMAGES[1:3] + PREIMAGES[1:2]), Asked(twice, whose)]
            asked += [Asked(row, whose, height=height) for height in (0, LAST)]
            asked += [Asked(row, whose, feerate=feerate) for feerate in (0, 253, 10_000, 2**32 - 1)]
    return {**{it.line(): it.answer() for it in asked}, **of_appendix(), **refused(rows[0])}
