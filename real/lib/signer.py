"""Signs a partially signed transaction with private keys. Tested, not proved."""
from real.lib import psbt, scripts, signatures
from real.lib.curve import AnyCurve
from real.lib.errors import Refused
from real.lib.psbt import Partial, key_of
from real.lib.transaction import Digests, Output, hash160


def script_of(fields: dict[bytes, bytes], output: Output, index: int) -> bytes | None:
    """The script that an input's signature is over, or None where the input is of another kind."""
    if scripts.is_key_hash(output.program):
        return scripts.key_script(output.program)
    if not scripts.is_script_hash(output.program):
        return None
    script = fields.get(key_of(psbt.WITNESS_SCRIPT))
    if script is None:
        raise Refused(f"NoScript {index}")
    if not scripts.has_script(output.program, script):
        raise Refused(f"OtherScript {index}")
    return script


def sign_input(
    found: Partial, index: int, keys: dict[bytes, tuple[bytes, bytes]], digests: Digests, curve: AnyCurve
) -> set[bytes]:
    """Adds to an input a signature of each key that its script names, by itself or by its hash. Gives the public keys."""
    fields, output = found.inputs[index], psbt.spent_output(found, index)
    taproot = psbt.taproot_fields(fields)
    if taproot:
        raise Refused(f"TaprootField {index} {taproot[0]}")
    if output is None:
        raise Refused(f"NoOutput {index}")
    kind = fields.get(key_of(psbt.SIGHASH_TYPE), signatures.ALL.to_bytes(4, "little"))
    if kind != signatures.ALL.to_bytes(4, "little"):
        raise Refused(f"HashType {index}")
    script = script_of(fields, output, index)
    if script is None:
        return set()
    pushes = scripts.pushes(script)
    if pushes is None:
        raise Refused(f"BadScript {index}")
    used = dict(keys[it] for it in pushes if it in keys)
    digest = digests.digest_of(index, script, output.value)
    for public, private in used.items():
        der = curve.sign(private, digest)
        if not curve.verify(public, digest, der):
            raise Refused(f"BadSignature {index}")
        fields[key_of(psbt.PARTIAL_SIG, public)] = der + bytes([signatures.ALL])
    return set(used)


def sign(found: Partial, privates: list[bytes], curve: AnyCurve) -> Partial:
    """Signs each input for each private key whose public key its script names. A key that no script names is refused
    by its place.
    """
    for number, private in enumerate(privates):
        if not curve.is_private(private):
            raise Refused(f"BadKey {number}")
    publics = [curve.public_key(it) for it in privates]
    # by what a script has of it: the key or its hash
    keys = {name: pair for pair in zip(publics, privates) for name in (pair[0], hash160(pair[0]))}
    digests = Digests(found.transaction)
    used = set().union(*(sign_input(found, index, keys, digests, curve) for index in range(len(found.inputs))))
    for number, public in enumerate(publics):
        if public not in used:
            raise Refused(f"UnusedKey {number}")
    return found
