"""The worked signers of bindings/: from a to_local script of BOLT 3 to the signed transaction that takes its output after the delay, in C, Rust, Go and Python, each by a secp256k1 library of its language. Tested, not proved.

Each has to print the same bytes, which are worked out here by real/lib/transaction.py and the system's libsecp256k1: the nonce of a signature is that of RFC 6979, and its s is low. `run` has a node of Bitcoin on regtest
take them, once the delay is over and not a block earlier, and real/judge.
"""
import os
import shutil
import subprocess
import sys

sys.dont_write_bytecode = True
TOP = os.path.dirname(os.path.dirname(os.path.dirname(os.path.abspath(__file__))))
sys.path.insert(0, TOP)
from real.lib.commitment import program_of
from real.lib.curve import Curve
from real.lib.errors import NotRun
from real.lib.transaction import Digests, Input, Output, Transaction, hash160
from real.tests.node_channels import Coin, outpoint_of, secret_of, sign_coin, to_local_script

BINDINGS = f"{TOP}/bindings"
SECONDS = 600
LANGUAGES = "C", "Rust", "Go", "Python"
# where Debian puts the sources of Go packages, and a package that signs
GO_PACKAGES, GO_SIGNER = "/usr/share/gocode", "github.com/btcsuite/btcd/btcec"
PROGRAM, FEE = b"\x00\x14" + b"\xc7" * 20, 1_234
DELAYS = {"C": 3, "Rust": 6, "Go": 9, "Python": 12}
# coinbases can be spent after a hundred blocks
MATURITY = 101


class Taken:
    """An output with a to_local script, and the transaction that takes it."""

    def __init__(self, curve, name, delay, outpoint, value):
        self.secret, self.revocation = secret_of(f"{name} delayed"), curve.public_key(secret_of(f"{name} revocation"))
        self.delay, self.outpoint, self.value = delay, outpoint, value
        self.script = to_local_script(self.revocation, delay, curve.public_key(self.secret))

    def words(self):
        """What a signer reads."""
        kept = self.secret.hex(), self.revocation.hex(), self.delay, self.outpoint[31::-1].hex(), int.from_bytes(self.outpoint[32:], "little"), self.value, FEE, PROGRAM.hex()
        return " ".join(map(str, kept)) + "\n"

    def transaction(self, curve):
        """What it has to print, in hexadecimal (BIP 143, BIP 144)."""
        made = Transaction(2, [Input(self.outpoint, b"", self.delay, [])], [Output(self.value - FEE, PROGRAM)], 0)
        signature = curve.sign(self.secret, Digests(made).digest_of(0, self.script, self.value)) + b"\x01"
        made.inputs[0].witness += [signature, b"", self.script]
        return made.bytes().hex()


def output_of(words, **setting):
    """What a command prints on standard output; what it says where it fails."""
    done = subprocess.run(words, capture_output=True, text=True, timeout=SECONDS, **setting)
    return done.stdout if done.returncode == 0 else f"{' '.join(words)}: status {done.returncode}: {done.stdout[-500:]}{done.stderr[-1500:]}"


def has(words):
    return bool(shutil.which(words[0])) and subprocess.run(words, capture_output=True).returncode == 0


def python_with_ecdsa():
    return next((it for it in (sys.executable, "/usr/bin/python3") if has([it, "-c", "import ecdsa"])), None)


def signers(installed, work):
    """Each language that is here, with the command of its signer and the environment of that: over what ./enforce --install-library put into a folder."""
    setting = {**os.environ, "PKG_CONFIG_PATH": f"{installed}/lib/pkgconfig"}
    found = {}

    def make(language, words, **given):
        made = output_of(words, **given)
        if made:
            raise SystemExit(f"{made}\nsigning: this failed")
        found[language] = [f"{work}/sign-{language}"], setting

    if has(["pkg-config", "--exists", "libsecp256k1"]) and has(["cc", "--version"]):
        flags = output_of(["pkg-config", "--cflags", "--libs", "enforce", "libsecp256k1"], env=setting).split()
        make("C", ["cc", "-Wall", "-Wextra", "-Werror", "-o", f"{work}/sign-C", f"{BINDINGS}/c/sign.c", *flags])
        if has(["rustc", "--version"]):
            rust = ["rustc", "--edition", "2024", "-O", "--out-dir", work]
            make("Rust", [*rust, "--crate-type", "rlib", "--crate-name", "enforce", "-L", f"native={installed}/lib", "-l", "static=enforce", f"{BINDINGS}/rust/src/lib.rs"])
            make("Rust", [*rust, "-L", work, "--extern", f"enforce={work}/libenforce.rlib", "--crate-name", "sign", "-o", f"{work}/sign-Rust", f"{BINDINGS}/rust/examples/sign.rs"])
    if has(["go", "version"]) and os.path.isdir(f"{GO_PACKAGES}/src/{GO_SIGNER}"):
        shutil.copytree(f"{BINDINGS}/go", f"{work}/go/src/enforce", dirs_exist_ok=True)
        by_path = {**setting, "GO111MODULE": "off", "GOPATH": f"{work}/go:{GO_PACKAGES}", "GOCACHE": f"{work}/go_cache", "CGO_ENABLED": "1"}
        make("Go", ["go", "build", "-o", f"{work}/sign-Go", "enforce/sign"], env=by_path)
    if python_with_ecdsa():
        paths = {**setting, "ENFORCE_LIBRARY": f"{installed}/lib/libenforce.so", "PYTHONPATH": f"{BINDINGS}/python", "PYTHONDONTWRITEBYTECODE": "1"}
        found["Python"] = [python_with_ecdsa(), f"{BINDINGS}/python/sign.py"], paths
    for it in LANGUAGES:
        if it not in found:
            print(f"library: no signer in {it}: its language or its secp256k1 library is missing here")
    return found


def curve_here():
    """The system's libsecp256k1, or None."""
    try:
        return Curve()
    except NotRun as why:
        print(f"library: no signer: {why}")
        return None


def answers(installed, work):
    """A name, what a signer has to print, and what it prints."""
    curve = curve_here()
    if curve is None:
        return
    cases = [Taken(curve, f"case {delay}", delay, secret_of(f"outpoint {delay}") + delay.to_bytes(4, "little"), 70_000 + delay) for delay in (1, 16, 17, 144, 65535)]
    for language, (words, setting) in signers(installed, work).items():
        for it in cases:
            yield f"{language} sign, {it.delay} blocks", it.transaction(curve) + "\n", output_of(words, input=it.words(), env=setting)


class Signings:
    """A node on regtest with an output for each language."""

    def __init__(self, node, curve):
        self.node, self.curve, self.taken, self.refused, self.differ = node, curve, 0, 0, 0

    def check(self, holds, what, told=""):
        self.differ += not holds
        print(f"right: {what}" if holds else f"differs: {what} {told}", flush=True)
        return holds

    def fund(self, names):
        """Pays an output with a to_local script for each of these languages, and mines it."""
        private = secret_of("coins")
        program = b"\x00\x14" + hash160(self.curve.public_key(private))
        self.node.mine(MATURITY, program)
        before = self.node.call("getblock", self.node.call("getblockhash", 1), 2)["tx"][0]
        value = round(before["vout"][0]["value"] * 10**8)
        coin = Coin(bytes.fromhex(before["txid"])[::-1] + bytes(4), value, private)
        cases = [Taken(self.curve, f"{name} on regtest", DELAYS[name], b"", 80_000 + DELAYS[name]) for name in names]
        outputs = [Output(it.value, program_of(it.script)) for it in cases]
        made = Transaction(2, [Input(coin.outpoint, b"", 0xFFFFFFFE)], [*outputs, Output(value - sum(it.value for it in outputs) - 10_000, program)], 0)
        sign_coin(self.curve, made, 0, coin)
        self.node.send(made.bytes())
        self.node.mine(1, PROGRAM)
        for at, it in enumerate(cases):
            it.outpoint = outpoint_of(made, at)
        return cases

    def take(self, name, it, printed):
        """Has the judge and the node take what a signer printed: the node once its delay is over, and not a block earlier."""
        if not self.check(printed == it.transaction(self.curve) + "\n", f"{name}: it prints the transaction", printed[-500:]):
            return
        raw, given = bytes.fromhex(printed), f"{printed.strip()}\n{it.value} {program_of(it.script).hex()}\n"
        judged = subprocess.run([f"{TOP}/real/judge", "--text"], input=given, capture_output=True, text=True, timeout=SECONDS)
        self.check(judged.returncode == 0, f"{name}: real/judge says that it is clean", judged.stdout[-500:] + judged.stderr[-500:])
        # the next block has a transaction that is one block more above the output than the newest one is
        self.node.mine(it.delay - 2 - self.age(it), PROGRAM)
        self.refused += self.check(self.node.refusal(raw) == "non-BIP68-final", f"{name}: the node refuses it after {it.delay - 1} blocks")
        self.node.mine(1, PROGRAM)
        for at in range(len(raw)):
            changed = bytearray(raw)
            changed[at] ^= 1
            self.refused += 1
            if self.node.refusal(bytes(changed)) is None:
                self.check(False, f"{name}: the node takes it with byte {at} changed")
        self.taken += self.check(self.node.refusal(raw) is None, f"{name}: the node takes it after {it.delay} blocks")
        txid = self.node.send(raw)
        self.node.mine(1, PROGRAM)
        self.check(self.node.block_of(txid) is not None, f"{name}: a block has it")

    def age(self, it):
        """How many blocks stand above the one that has the output."""
        found = self.node.call("gettxout", it.outpoint[31::-1].hex(), int.from_bytes(it.outpoint[32:], "little"))
        return found["confirmations"] - 1


def run(installed, work, node):
    """Has a node take what each signer prints; the last line, and how many things differ."""
    curve = curve_here()
    if curve is None:
        return "signed: not run", 1
    signings, all_signers = Signings(node, curve), signers(installed, work)
    cases = dict(zip(all_signers, signings.fund(all_signers)))
    for name, (words, setting) in all_signers.items():
        signings.take(name, cases[name], output_of(words, input=cases[name].words(), env=setting))
    return f"signed: {signings.taken} taken by the node, {signings.refused} refused as they should be, {signings.differ} differ", signings.differ + len(LANGUAGES) - signings.taken
