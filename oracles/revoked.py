#!/usr/bin/env python3
"""revoked.py (--input | --output): the vectors after `== revoked` of the program `vectors`, from BOLT 3's Appendix C.

`real/tests/bolt3.json` has the appendix: its keys, HTLCs, transactions, programs and scripts. Each transaction is read with all that it is made of, with HTLCs
that it does not have among the others, and with one key, the delay, or one part of an HTLC changed. What still matches is told from the appendix's own scripts,
as bytes: an output is claimed if none of what its script is made of was changed.

The appendix has no anchors. So the commitment with the most outputs is read once more, as BOLT 3 has it with `option_anchors`: each HTLC's script has
`1 CHECKSEQUENCEVERIFY DROP` before its last ENDIF, to_remote another script, and two anchors come with it. Both commitments are read as of the other type too."""
import json
import pathlib
import sys

from bitcoin import little_endian, script_program, sha256d, sized_data

HERE = pathlib.Path(__file__).resolve().parent
APPENDIX = json.loads((HERE.parent / "real/tests/bolt3.json").read_text())
TERMS = APPENDIX["terms"]
KEYS = TERMS["keys"]
NAMES = ["revocation", "delayed", "local_htlc", "remote_htlc", "remote"]
OWN = {
    "revocation": KEYS["local_revocation_pubkey"],
    "delayed": KEYS["local_delayedpubkey"],
    "local_htlc": KEYS["local_htlcpubkey"],
    "remote_htlc": KEYS["remote_htlcpubkey"],
    "remote": KEYS["remote_payment_basepoint"],
    "delay": TERMS["local_delay"],
    "type": "static_remotekey",
}
# What each kind of output is made of. With anchors to_remote and the anchors are never claimed.
MADE_OF = {
    "to_local": {"revocation", "delayed", "delay"},
    "to_remote": {"remote"},
    "offered": {"revocation", "local_htlc", "remote_htlc"},
    "received": {"revocation", "local_htlc", "remote_htlc"},
}


def htlc_of(number):
    htlc = next(h for h in APPENDIX["htlcs"] if h["id"] == number)
    return ("received" if not htlc["offered_by_local"] else "offered", htlc["payment_hash"], htlc["cltv_expiry"])


WAITS_FOR_A_BLOCK = "51b275"
ANCHOR_SAT = 330


def program_of(script):
    return script_program(bytes.fromhex(script)).hex()


def anchor_outputs(case):
    """The outputs of a case's commitment as they are with anchors, in their order (BIP 69)."""
    outputs = []
    for it in case["outputs"]:
        if it["kind"] == "to_remote":
            outputs.append(dict(it, kind="to_remote_after_a_block", script_pubkey=program_of("21" + OWN["remote"] + "ad51b2")))
        elif it["kind"] == "to_local":
            outputs.append(it)
        else:
            script = it["witness_script"][:-2] + WAITS_FOR_A_BLOCK + it["witness_script"][-2:]
            outputs.append(dict(it, witness_script=script, script_pubkey=program_of(script)))
    for key in (KEYS["local_funding_pubkey"], KEYS["remote_funding_pubkey"]):
        outputs.append({"kind": "anchor", "value_sat": ANCHOR_SAT, "script_pubkey": program_of("21" + key + "ac736460b268")})
    return sorted(outputs, key=lambda it: (it["value_sat"], bytes.fromhex(it["script_pubkey"])))


def changed_transaction(tx, outputs):
    """A transaction of one input with other outputs, and its id in the hash's own byte order."""
    up_to_outputs = 2 * (4 + 1 + 41)
    spelt = b"".join(little_endian(it["value_sat"], 8) + sized_data(bytes.fromhex(it["script_pubkey"])) for it in outputs)
    found = tx[:up_to_outputs] + f"{len(outputs):02x}" + spelt.hex() + tx[-8:]
    return found, sha256d(bytes.fromhex(found)).hex()


def same_script(one, other):
    """Whether two HTLCs have one script: that of an offered one has no expiry."""
    return one[:2] == other[:2] and (one[0] == "offered" or one[2] == other[2])


def changed_key(key):
    """Another key of the same form."""
    return key[:-1] + ("0" if key[-1] != "0" else "1")


class Row:
    """A commitment as a line has it, with the transaction and its outputs."""

    def __init__(self, values, tx, txid, outputs, htlcs, channel_type="static_remotekey"):
        self.values, self.tx, self.txid, self.outputs, self.htlcs = values, tx, txid, outputs, htlcs
        self.channel_type = channel_type

    def line(self):
        words = [self.tx, self.values["type"]] + [self.values[name] for name in NAMES] + [str(self.values["delay"])]
        return " ".join(words + [f"{d}:{h}:{e}" for d, h, e in self.htlcs])

    def is_claimed(self, output):
        kind = output["kind"]
        if kind not in MADE_OF or any(self.values[part] != OWN[part] for part in MADE_OF[kind]):
            return False
        if kind not in ("offered", "received"):
            return True
        if self.values["type"] != self.channel_type:
            return False
        own = htlc_of(output["htlc"])
        assert own[0] == kind
        return any(same_script(own, htlc) for htlc in self.htlcs)

    def claim(self, index, output):
        kind = output["kind"]
        key = OWN["remote"] if kind == "to_remote" else OWN["revocation"]
        item = "01" if kind == "to_local" else key
        script = output.get("witness_script") or "76a914" + output["script_pubkey"][4:] + "88ac"
        return (f"{self.txid}:{index} value {output['value_sat']} program {output['script_pubkey']} "
                f"script {script} path 0 exact:{item} sig:{key}")

    def answer(self):
        claimed = [self.claim(i, o) for i, o in enumerate(self.outputs) if self.is_claimed(o)]
        others = [i for i, o in enumerate(self.outputs) if not self.is_claimed(o)]
        return claimed + ["others" + "".join(f" {i}" for i in others)]


def commitment_variants(values, htlcs):
    """The commitment as it is, and with one part changed each time."""
    yield values, htlcs
    yield values, list(reversed(htlcs))
    for name in NAMES:
        yield dict(values, **{name: changed_key(values[name])}), htlcs
    for delay in (values["delay"] - 1, values["delay"] + 1, 16, 17, 0, 65535):
        yield dict(values, delay=delay), htlcs
    for at, (direction, payment_hash, expiry) in enumerate(htlcs):
        other = "offered" if direction == "received" else "received"
        for htlc in ([], [(other, payment_hash, expiry)], [(direction, changed_key(payment_hash), expiry)], [(direction, payment_hash, expiry + 1)]):
            yield values, htlcs[:at] + htlc + htlcs[at + 1:]


def rows():
    to_local = {"kind": "to_local"}
    everything = [htlc_of(h["id"]) for h in APPENDIX["htlcs"]]
    for case in APPENDIX["cases"]:
        htlcs = [htlc_of(number) for number in case["htlcs_given"]]
        for values, known in commitment_variants(OWN, htlcs):
            yield Row(values, case["unsigned_tx_no_witness"], case["txid_hash_order"], case["outputs"], known)
        yield Row(OWN, case["unsigned_tx_no_witness"], case["txid_hash_order"], case["outputs"], everything)
        script = next((o["witness_script"] for o in case["outputs"] if o["kind"] == "to_local"), None)
        for second in case["htlc_transactions"]:
            output = dict(to_local, value_sat=second["output_value_sat"], script_pubkey=second["output_script_pubkey"], witness_script=script)
            for values in (OWN, dict(OWN, remote=changed_key(OWN["remote"])), dict(OWN, delayed=changed_key(OWN["delayed"])),
                           dict(OWN, revocation=changed_key(OWN["revocation"])), dict(OWN, delay=OWN["delay"] + 1)):
                yield Row(values, second["unsigned_tx_no_witness"], second["txid_hash_order"], [output], htlcs)
    yield from rows_with_anchors(everything)


def rows_with_anchors(everything):
    """The commitment with the most outputs, with and without anchors, as of its own type and of the other one, and an HTLC transaction."""
    case = max(APPENDIX["cases"], key=lambda it: len(it["outputs"]))
    htlcs = [htlc_of(number) for number in case["htlcs_given"]]
    outputs = anchor_outputs(case)
    tx, txid = changed_transaction(case["unsigned_tx_no_witness"], outputs)
    own = dict(OWN, type="anchors")
    for values, known in commitment_variants(own, htlcs):
        yield Row(values, tx, txid, outputs, known, "anchors")
    yield Row(own, tx, txid, outputs, everything, "anchors")
    yield Row(OWN, tx, txid, outputs, htlcs, "anchors")
    yield Row(own, case["unsigned_tx_no_witness"], case["txid_hash_order"], case["outputs"], htlcs)
    second = case["htlc_transactions"][0]
    script = next(it["witness_script"] for it in case["outputs"] if it["kind"] == "to_local")
    output = {"kind": "to_local", "value_sat": second["output_value_sat"], "script_pubkey": second["output_script_pubkey"], "witness_script": script}
    yield Row(own, second["unsigned_tx_no_witness"], second["txid_hash_order"], [output], htlcs)


def main(argument):
    for row in rows():
        if argument == "--input":
            print(row.line())
        else:
            print("\n".join(row.answer()))


if __name__ == "__main__":
    if len(sys.argv) != 2 or sys.argv[1] not in ("--input", "--output"):
        sys.exit(__doc__)
    main(sys.argv[1])
