"""Notes in words on what is given in the form of another tool, beside the refusal's name. Tested, not proved."""
import re
from decimal import Decimal

from real.lib.errors import Refused, bytes_of
from real.lib.transaction import MAX_MONEY

# bitcoins with a point, as a node prints them; and how addresses and the private keys of wallets begin
BITCOINS = re.compile(r"\d{1,8}\.\d{1,8}", re.ASCII)
ADDRESS = re.compile(r"(?:bc|tb|bcrt)1[02-9ac-hj-np-z]{11,87}|[123mn][1-9A-HJ-NP-Za-km-z]{25,34}", re.ASCII)
WALLET_KEY = re.compile(r"[59KLc][1-9A-HJ-NP-Za-km-z]{50,51}", re.ASCII)
SATOSHIS = 100_000_000


def is_hex(word: str) -> bool:
    try:
        return bool(bytes_of(word))
    except Refused:
        return False


def hex_hint(word: str) -> str:
    """Why a word is not bytes in hexadecimal."""
    if ADDRESS.fullmatch(word) or ADDRESS.fullmatch(word.lower()):
        return (
            "this is an address; its program is what bitcoin-cli validateaddress ADDRESS has as scriptPubKey, on the"
            " address's own network"
        )
    if word[:2] in ("0x", "0X"):
        return "hexadecimal stands here without 0x"
    if any(it.isspace() for it in word):
        return "hexadecimal stands here without blanks and line ends"
    if len(word) % 2 and is_hex(f"0{word}"):
        return f"{len(word)} hexadecimal digits are no whole bytes"
    return "this is not hexadecimal"


def value_hint(word: str) -> str:
    """Why a word is no value in satoshis."""
    if BITCOINS.fullmatch(word):
        return (
            f"a value stands here in satoshis: {word} bitcoins, as a node prints them, are"
            f" {int(Decimal(word) * SATOSHIS)}"
        )
    if word.isascii() and word.isdecimal():
        return f"a value has at most {MAX_MONEY} satoshis, 21 million bitcoins"
    return "a value is a whole number of satoshis, in digits alone"


def line_hint(line: str) -> str:
    """Why a line is not a value and a program."""
    words = line.split()
    if len(words) != 2:
        return "a line has two words: a value in satoshis, and a program in hexadecimal"
    value, program = words
    if line != f"{value} {program}":
        return "one blank, and no tab, stands between the value and the program"
    if is_hex(value) and (program.isdecimal() or BITCOINS.fullmatch(program)):
        return "the value stands first, and then the program"
    if not (value.isascii() and value.isdecimal() and len(value) <= 16 and int(value) <= MAX_MONEY):
        return value_hint(value)
    return hex_hint(program)


def key_hint(line: str) -> str:
    """Why a line is no private key. Nothing of the line is said."""
    if WALLET_KEY.fullmatch(line):
        return "this has the form of a wallet's private key (WIF); 32 bytes in hexadecimal are wanted"
    if line[:4] in ("xprv", "tprv"):
        return "this begins as the root of a wallet's keys (BIP 32); 32 bytes in hexadecimal are wanted"
    if line[:1] == "{":
        return "this begins as JSON: one object is read, and then private keys"
    if line[:2] in ("02", "03") and len(line) == 66:
        return "this has the form of a public key; a private key has 32 bytes"
    return "a private key stands here as 32 bytes in hexadecimal, 64 digits, without 0x"


def private_key_of(number: int, line: str) -> bytes:
    """The private key on line `number` after the first."""
    if len(line) != 64 or not is_hex(line):
        raise Refused(f"BadKey {number}", f"key {number}: {key_hint(line)}")
    return bytes_of(line)
