"""A run of a version 0 script by the rules of consensus, with real signatures, over the opcodes that the proved
machine knows. Tested, not proved.

It decides nothing that the machine decides. It tells two things beside: whether a stop of the machine is one of
consensus too, or a rule that is stricter there; and which rules of relay a run breaks (BIP 146, and the policy that
Bitcoin Core names by these words).
"""
from dataclasses import dataclass

from real.lib import scripts
from real.lib.curve import Verifier
from real.lib.errors import Refused
from real.lib.scripts import operations
from real.lib.signatures import ALL, KEY_SIZE, is_strict_der, is_token, token
from real.lib.transaction import Transaction, hash160

MAX_OPS, MAX_STACK, MAX_ITEM, MAX_SCRIPT, MAX_KEYS = 201, 1000, 520, 10_000, 20
LOCKTIME_THRESHOLD, FINAL = 500_000_000, 0xFFFFFFFF
DISABLE, TYPE, MASK = 1 << 31, 1 << 22, 0xFFFF
COUNT_SIZE, LOCK_SIZE = 4, 5
TRUE, FALSE = b"\x01", b""


class Fails(Exception):
    """The run fails by consensus."""


def is_true(item: bytes) -> bool:
    return any(item[:-1]) or item[-1:] not in (b"", b"\x00", b"\x80")


def number_bytes(number: int) -> bytes:
    """A number that is not negative, minimally encoded."""
    return number.to_bytes(number.bit_length() // 8 + 1, "little") if number else b""


def is_minimal_number(item: bytes) -> bool:
    return not item or bool(item[-1] & 0x7F) or len(item) > 1 and bool(item[-2] & 0x80)


def is_minimal_push(opcode: int, pushed: bytes) -> bool:
    """Whether no shorter opcode pushes the same (MINIMALDATA)."""
    return (
        opcode in (0, *range(scripts.FIRST_NUMBER, scripts.LAST_NUMBER + 1))
        or len(pushed) > 1
        or not (1 <= pushed[0] <= 16 or pushed[0] == 0x81)
    )


class Spend:
    """What a script's checks look at: the transaction, the input, and how a real signature is verified."""

    def __init__(self, transaction: Transaction, index: int, digest: bytes, curve: Verifier | None) -> None:
        self.version, self.lock_time = transaction.version, transaction.lock_time
        self.sequence = transaction.inputs[index].sequence
        self.digest, self.curve = digest, curve

    def has_form(self, signature: bytes) -> bool:
        return is_strict_der(signature)

    def has_low_s(self, signature: bytes) -> bool:
        assert self.curve is not None
        return self.curve.has_low_s(signature[:-1])

    def is_valid(self, signature: bytes, key: bytes) -> bool:
        assert self.curve is not None
        return signature[-1] == ALL and self.curve.verify(key, self.digest, signature[:-1])


class TokenSpend(Spend):
    """The same where tokens stand for signatures."""

    def has_form(self, signature: bytes) -> bool:
        return is_token(signature)

    def has_low_s(self, signature: bytes) -> bool:
        return True

    def is_valid(self, signature: bytes, key: bytes) -> bool:
        return signature == token(key, self.digest)


class Run:
    """A run, from the witness to its end."""

    def __init__(self, spend: Spend, items: list[bytes]) -> None:
        self.spend, self.stack = spend, list(items)
        self.opcode, self.counted = 0, 0
        self.branches: list[bool] = []
        self.relay: set[str] = set()

    def fail_unless(self, holds: object) -> None:
        if not holds:
            raise Fails

    def pop(self) -> bytes:
        self.fail_unless(self.stack)
        return self.stack.pop()

    def top(self) -> bytes:
        self.fail_unless(self.stack)
        return self.stack[-1]

    def number(self, item: bytes, size: int) -> int:
        self.fail_unless(len(item) <= size)
        if not is_minimal_number(item):
            self.relay.add("MINIMALDATA")
        found = int.from_bytes(item, "little")
        sign = 0x80 << 8 * (len(item) - 1) if item else 0
        return -(found ^ sign) if found & sign else found

    def is_valid(self, signature: bytes, key: bytes) -> bool:
        """Whether a signature is the key's; one of bad form fails the run (BIP 66)."""
        self.fail_unless(not signature or self.spend.has_form(signature))
        if len(key) != KEY_SIZE or key[0] not in (2, 3):
            self.relay.add("WITNESS_PUBKEYTYPE")
        if not signature:
            return False
        if not self.spend.has_low_s(signature):
            self.relay.add("LOW_S")
        return self.spend.is_valid(signature, key)

    def answer(self, holds: bool, signatures: list[bytes]) -> None:
        if not holds and any(signatures):
            self.relay.add("NULLFAIL")
        self.stack.append(TRUE if holds else FALSE)

    def check_signature(self) -> None:
        self.fail_unless(len(self.stack) >= 2)
        key, signature = self.pop(), self.pop()
        self.answer(self.is_valid(signature, key), [signature])

    def take(self, most: int) -> list[bytes]:
        """A count and that many items, the top first."""
        count = self.number(self.pop(), COUNT_SIZE)
        self.fail_unless(0 <= count <= most and len(self.stack) >= count)
        return [self.pop() for _ in range(count)]

    def check_signatures(self) -> None:
        keys = self.take(MAX_KEYS)
        self.counted += len(keys)
        self.fail_unless(self.counted <= MAX_OPS)
        signatures = self.take(len(keys))
        extra, holds, at_key, at = self.pop(), True, 0, 0
        while holds and at < len(signatures):
            at += self.is_valid(signatures[at], keys[at_key])
            at_key += 1
            holds = len(signatures) - at <= len(keys) - at_key
        self.fail_unless(not extra)
        self.answer(holds, signatures)

    def check_lock_time(self) -> None:
        """BIP 65."""
        wanted, reached = self.number(self.top(), LOCK_SIZE), self.spend.lock_time
        self.fail_unless(
            0 <= wanted <= reached
            and (wanted < LOCKTIME_THRESHOLD) == (reached < LOCKTIME_THRESHOLD)
            and self.spend.sequence != FINAL
        )

    def check_sequence(self) -> None:
        """BIP 112."""
        wanted, reached = self.number(self.top(), LOCK_SIZE), self.spend.sequence
        self.fail_unless(wanted >= 0)
        if not wanted & DISABLE:
            fits = wanted & TYPE == reached & TYPE and wanted & MASK <= reached & MASK
            self.fail_unless(self.spend.version >= 2 and not reached & DISABLE and fits)

    def branch(self, opcode: int, runs: bool) -> None:
        holds = False
        if runs:
            item = self.pop()
            if item not in (FALSE, TRUE):
                self.relay.add("MINIMALIF")
            holds = is_true(item) == (opcode == scripts.IF)
        self.branches.append(holds)

    def change_branch(self, opcode: int) -> None:
        self.fail_unless(self.branches)
        if opcode == scripts.ELSE:
            self.branches[-1] = not self.branches[-1]
        else:
            self.branches.pop()

    def compare(self, opcode: int) -> None:
        self.fail_unless(len(self.stack) >= 2)
        same = self.pop() == self.pop()
        if opcode == scripts.EQUAL:
            self.stack.append(TRUE if same else FALSE)
        else:
            self.fail_unless(same)

    def swap(self) -> None:
        self.fail_unless(len(self.stack) >= 2)
        self.stack[-2:] = self.stack[:-3:-1]

    def step(self, opcode: int, pushed: bytes | None) -> None:
        if pushed is not None:
            if not is_minimal_push(opcode, pushed):
                self.relay.add("MINIMALDATA")
            self.stack.append(pushed)
        elif opcode in (scripts.EQUAL, scripts.EQUALVERIFY):
            self.compare(opcode)
        else:
            {
                scripts.DROP: self.pop,
                scripts.DUP: lambda: self.stack.append(self.top()),
                scripts.SWAP: self.swap,
                scripts.SIZE: lambda: self.stack.append(number_bytes(len(self.top()))),
                scripts.HASH160: lambda: self.stack.append(hash160(self.pop())),
                scripts.CHECKSIG: self.check_signature,
                scripts.CHECKMULTISIG: self.check_signatures,
                scripts.CHECKLOCKTIMEVERIFY: self.check_lock_time,
                scripts.CHECKSEQUENCEVERIFY: self.check_sequence,
            }[opcode]()

    def steps(self, operations_of: list[tuple[int, int, bytes | None]]) -> None:
        """Runs these opcodes, the first ones of a script."""
        for _, opcode, pushed in operations_of:
            self.counted += opcode > scripts.LAST_NUMBER
            self.fail_unless(self.counted <= MAX_OPS)
            runs = all(self.branches)
            if opcode in (scripts.IF, scripts.NOTIF):
                self.branch(opcode, runs)
            elif opcode in (scripts.ELSE, scripts.ENDIF):
                self.change_branch(opcode)
            elif runs:
                self.step(opcode, pushed)
            self.fail_unless(len(self.stack) <= MAX_STACK)
            self.opcode += 1

    def run_script(self, operations_of: list[tuple[int, int, bytes | None]]) -> None:
        self.fail_unless(all(len(it) <= MAX_ITEM for it in self.stack))
        self.steps(operations_of)
        self.fail_unless(not self.branches and len(self.stack) == 1 and is_true(self.stack[0]))


@dataclass
class End:
    """How a run ends: whether it is valid by consensus, the opcode at which it fails (at the end, their number), and
    the rules of relay that a valid one breaks.
    """

    valid: bool
    opcode: int
    relay: set[str]


def end_of(spend: Spend, script: bytes, items: list[bytes]) -> End:
    """How a script runs on these items."""
    run = Run(spend, items)
    try:
        if len(script) > MAX_SCRIPT:
            raise Fails
        run.run_script(operations(script))
    except (Fails, Refused):
        return End(False, run.opcode, set())
    return End(True, run.opcode, run.relay)


def stack_before(spend: Spend, script: bytes, items: list[bytes], opcode: int) -> list[bytes]:
    """The stack before an opcode, the top first, of a script that does not fail before it."""
    run = Run(spend, items)
    run.steps(operations(script)[:opcode])
    return run.stack[::-1]
