"""From a to_local script to the signed transaction that takes its output after the delay. Reads words from standard input, which c/sign.c names. Signs by the package ecdsa."""
import sys
from hashlib import sha256

from ecdsa import SECP256k1, SigningKey
from ecdsa.util import sigencode_der_canonize

import enforce

secret, revocation, delay, txid, index, value, fee, program = sys.stdin.read().split()
signer = SigningKey.from_string(bytes.fromhex(secret), curve=SECP256k1)
key = signer.verifying_key.to_string("compressed")
try:
    script = enforce.form_script(enforce.ToLocal(revocation=bytes.fromhex(revocation), delayed=key, delay_blocks=int(delay)))
    path = next(at for at, it in enumerate(enforce.paths(script)) if it.age is not None)
    slots = enforce.path_slots(script, path, [key])
    claim = enforce.Claim(enforce.reversed_id(bytes.fromhex(txid)), int(index), int(value), script, enforce.program(script), path, slots)
    print(f"can be mined {enforce.accept(claim).sequence} blocks after its output", file=sys.stderr)
    outputs = [enforce.Output(max(0, int(value) - int(fee)), bytes.fromhex(program))]
    signatures = []
    for it in enforce.unsigned_spend([claim], outputs).signatures:
        der = signer.sign_digest_deterministic(it.digest, hashfunc=sha256, sigencode=sigencode_der_canonize)
        signatures.append(enforce.Signed(it.input, it.item, der + b"\1"))  # SIGHASH_ALL
    print(enforce.finish([claim], outputs, [], signatures).tx.hex())
except enforce.Refused as refused:
    sys.exit(f"{refused}: {refused.sentence}")
