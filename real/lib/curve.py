"""Signatures of secp256k1 by the system's libsecp256k1, or as they were recorded. Tested, not proved."""
import ctypes
import ctypes.util
import functools
import json
import os
from typing import Any, Protocol

from real.lib.errors import NotRun
from real.lib.transaction import sha256

NAMES = (
    "libsecp256k1.so.6",
    "libsecp256k1.so.5",
    "libsecp256k1.so.2",
    "libsecp256k1.so.1",
    "libsecp256k1.so.0",
    "libsecp256k1.so",
    "libsecp256k1.dylib",
)
# for signing and verifying, as all versions of the library know it
CONTEXT = 0x0301
COMPRESSED = 0x0102
POINTER, SIZE = ctypes.c_void_p, ctypes.c_size_t
# what is passed to each function after the context
FUNCTIONS = {
    "secp256k1_context_randomize": (ctypes.c_char_p,),
    "secp256k1_ec_pubkey_parse": (ctypes.c_char_p, ctypes.c_char_p, SIZE),
    "secp256k1_ec_pubkey_create": (ctypes.c_char_p, ctypes.c_char_p),
    "secp256k1_ec_pubkey_serialize": (ctypes.c_char_p, POINTER, ctypes.c_char_p, ctypes.c_uint),
    "secp256k1_ec_pubkey_tweak_add": (ctypes.c_char_p, ctypes.c_char_p),
    "secp256k1_ec_pubkey_tweak_mul": (ctypes.c_char_p, ctypes.c_char_p),
    "secp256k1_ec_pubkey_combine": (ctypes.c_char_p, POINTER, SIZE),
    "secp256k1_ec_seckey_verify": (ctypes.c_char_p,),
    "secp256k1_ecdsa_signature_parse_der": (ctypes.c_char_p, ctypes.c_char_p, SIZE),
    "secp256k1_ecdsa_signature_serialize_der": (ctypes.c_char_p, POINTER, ctypes.c_char_p),
    "secp256k1_ecdsa_signature_normalize": (ctypes.c_char_p, ctypes.c_char_p),
    "secp256k1_ecdsa_verify": (ctypes.c_char_p, ctypes.c_char_p, ctypes.c_char_p),
    "secp256k1_ecdsa_sign": (ctypes.c_char_p, ctypes.c_char_p, ctypes.c_char_p, POINTER, POINTER),
}


def library() -> ctypes.CDLL:
    """The system's library, with the types of what is called."""
    for name in filter(None, (ctypes.util.find_library("secp256k1"), *NAMES)):
        try:
            found = ctypes.CDLL(name)
        except OSError:
            continue
        found.secp256k1_context_create.restype = POINTER
        found.secp256k1_context_create.argtypes = (ctypes.c_uint,)
        for function, types in FUNCTIONS.items():
            getattr(found, function).argtypes = (POINTER, *types)
            getattr(found, function).restype = ctypes.c_int
        return found
    raise NotRun("libsecp256k1 is missing here")


class Verifier(Protocol):
    """What verifies signatures."""

    def verify(self, key: bytes, digest: bytes, der: bytes, /) -> bool:
        """Whether a signature in strict DER, without its hash type, is the key's over the digest."""

    def has_low_s(self, der: bytes, /) -> bool:
        """Whether the s of a signature in strict DER is at most half of the order (BIP 146)."""


class Curve:
    """The system's libsecp256k1."""

    def __init__(self) -> None:
        self.library = library()
        self.context = self.library.secp256k1_context_create(CONTEXT)
        self.call("context_randomize", os.urandom(32))

    def call(self, name: str, *given: Any) -> int:
        return getattr(self.library, f"secp256k1_{name}")(self.context, *given)

    def verify(self, key: bytes, digest: bytes, der: bytes) -> bool:
        """Whether a signature in strict DER, without its hash type, is the key's over the digest. A high s counts, as
        it does by consensus.
        """
        point, signature = ctypes.create_string_buffer(64), ctypes.create_string_buffer(64)
        if not self.call("ec_pubkey_parse", point, key, len(key)):
            return False
        if not self.call("ecdsa_signature_parse_der", signature, der, len(der)):
            return False
        self.call("ecdsa_signature_normalize", signature, signature)
        return bool(self.call("ecdsa_verify", signature, digest, point))

    def has_low_s(self, der: bytes) -> bool:
        """Whether the s of a signature in strict DER is at most half of the order (BIP 146)."""
        signature = ctypes.create_string_buffer(64)
        if not self.call("ecdsa_signature_parse_der", signature, der, len(der)):
            return True
        return not self.call("ecdsa_signature_normalize", None, signature)

    def is_private(self, private: bytes) -> bool:
        return len(private) == 32 and bool(self.call("ec_seckey_verify", private))

    def compressed_point(self, point: ctypes.Array[ctypes.c_char]) -> bytes:
        found, size = ctypes.create_string_buffer(33), SIZE(33)
        self.call("ec_pubkey_serialize", found, ctypes.byref(size), point, COMPRESSED)
        return found.raw

    def public_key(self, private: bytes) -> bytes:
        """The compressed public key of a private key."""
        point = ctypes.create_string_buffer(64)
        self.call("ec_pubkey_create", point, private)
        return self.compressed_point(point)

    def read_point(self, key: bytes) -> ctypes.Array[ctypes.c_char] | None:
        """A point by its compressed form; no bytes, which are no point, where there is none."""
        point = ctypes.create_string_buffer(64)
        return point if len(key) == 33 and self.call("ec_pubkey_parse", point, key, len(key)) else None

    def is_point(self, key: bytes) -> bool:
        return self.read_point(key) is not None

    def sum_with_generator(self, key: bytes, number: bytes) -> bytes:
        """A point and a number of times the generator together; empty where there is no such key."""
        point = self.read_point(key)
        if point is None or not self.call("ec_pubkey_tweak_add", point, number):
            return b""
        return self.compressed_point(point)

    def weighted_sum(self, first: bytes, one: bytes, second: bytes, other: bytes) -> bytes:
        """The sum of two points, each times its number; empty where there is no such key."""
        points = []
        for key, number in ((first, one), (second, other)):
            point = self.read_point(key)
            if point is None or not self.call("ec_pubkey_tweak_mul", point, number):
                return b""
            points.append(point)
        found, both = ctypes.create_string_buffer(64), (POINTER * 2)(*map(ctypes.addressof, points))
        if not self.call("ec_pubkey_combine", found, both, 2):
            return b""
        return self.compressed_point(found)

    def sign(self, private: bytes, digest: bytes) -> bytes:
        """A signature in DER with a low s, without its hash type, whose nonce is that of RFC 6979."""
        signature, found, size = ctypes.create_string_buffer(64), ctypes.create_string_buffer(72), SIZE(72)
        self.call("ecdsa_sign", signature, digest, private, None, None)
        self.call("ecdsa_signature_serialize_der", found, ctypes.byref(size), signature)
        return found.raw[: size.value]


class Once:
    """A curve that is asked each question once."""

    def __init__(self, curve: Verifier) -> None:
        self.verify, self.has_low_s = functools.cache(curve.verify), functools.cache(curve.has_low_s)


class Record:
    """The library's answers by their questions, so that they can be read again where it is missing."""

    def __init__(self, answers: dict[str, Any]) -> None:
        self.answers = answers

    @staticmethod
    def name_of(call: str, *given: bytes) -> str:
        """A question: the call and the SHA-256 of what it is asked."""
        return f"{call} {sha256(b''.join(bytes([len(it)]) + it for it in given)).hex()}"


class Recorded(Record):
    """Answers that were recorded. Nothing is verified: a question that is not in the record ends the run."""

    @classmethod
    def read(cls, path: str) -> "Recorded":
        try:
            with open(path, encoding="utf-8") as file:
                found = json.load(file)
        except (OSError, ValueError, RecursionError):
            raise NotRun(f"there is no record in {path}") from None
        if not isinstance(found, dict):
            raise NotRun(f"there is no record in {path}")
        return cls(found)

    def recorded_answer(self, kind: type, call: str, *given: bytes) -> Any:
        """The answer of this kind to a question."""
        found = self.answers.get(self.name_of(call, *given))
        if not isinstance(found, kind):
            raise NotRun("the record has no such signature")
        return found

    def asked_bytes(self, call: str, *given: bytes) -> bytes:
        try:
            return bytes.fromhex(self.recorded_answer(str, call, *given))
        except ValueError:
            raise NotRun("the record has no such signature") from None

    def verify(self, key: bytes, digest: bytes, der: bytes) -> bool:
        return self.recorded_answer(bool, "verify", key, digest, der)

    def has_low_s(self, der: bytes) -> bool:
        return self.recorded_answer(bool, "low", der)

    def is_private(self, private: bytes) -> bool:
        return self.recorded_answer(bool, "private", private)

    def public_key(self, private: bytes) -> bytes:
        return self.asked_bytes("public", private)

    def is_point(self, key: bytes) -> bool:
        return self.recorded_answer(bool, "point", key)

    def sum_with_generator(self, key: bytes, number: bytes) -> bytes:
        return self.asked_bytes("added", key, number)

    def weighted_sum(self, first: bytes, one: bytes, second: bytes, other: bytes) -> bytes:
        return self.asked_bytes("combined", first, one, second, other)

    def sign(self, private: bytes, digest: bytes) -> bytes:
        return self.asked_bytes("sign", private, digest)


class Recording(Record):
    """The library, whose answers are written down."""

    def __init__(self, curve: Curve, answers: dict[str, Any]) -> None:
        super().__init__(answers)
        self.curve = curve

    def note_answer(self, call: str, answer: bool | bytes, *given: bytes) -> Any:
        self.answers[self.name_of(call, *given)] = answer.hex() if isinstance(answer, bytes) else answer
        return answer

    def verify(self, key: bytes, digest: bytes, der: bytes) -> bool:
        return self.note_answer("verify", self.curve.verify(key, digest, der), key, digest, der)

    def has_low_s(self, der: bytes) -> bool:
        return self.note_answer("low", self.curve.has_low_s(der), der)

    def is_private(self, private: bytes) -> bool:
        return self.note_answer("private", self.curve.is_private(private), private)

    def public_key(self, private: bytes) -> bytes:
        return self.note_answer("public", self.curve.public_key(private), private)

    def is_point(self, key: bytes) -> bool:
        return self.note_answer("point", self.curve.is_point(key), key)

    def sum_with_generator(self, key: bytes, number: bytes) -> bytes:
        return self.note_answer("added", self.curve.sum_with_generator(key, number), key, number)

    def weighted_sum(self, first: bytes, one: bytes, second: bytes, other: bytes) -> bytes:
        return self.note_answer(
            "combined", self.curve.weighted_sum(first, one, second, other), first, one, second, other
        )

    def sign(self, private: bytes, digest: bytes) -> bytes:
        return self.note_answer("sign", self.curve.sign(private, digest), private, digest)


# a curve that is asked: the library, a record of its answers, or the library while its answers are recorded
AnyCurve = Curve | Recorded | Recording
