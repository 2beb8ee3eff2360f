#!/usr/bin/env python3
"""Calls of `trace`: what each reads, prints and returns, worked by hand from docs/TRACE.md and its pages.

  oracles/answers.py    status 1 where a call answers otherwise

A call that reads a text and prints something is made twice: the second time nothing can be written, and its status has to be 1. Wrong words read an input that never ends, and one that can't be read.
"""
import glob
import json
import os
import subprocess
import sys

from bitcoin import little_endian, script_program, sha256d

TOP = os.path.dirname(os.path.dirname(os.path.abspath(__file__)))
USAGE = "usage: trace scenario [--strict | --dump A|B] | dump | script [--text] [HEX] | witness [--text] [--lines]\n"
# what follows the usage: the line that helps
HELP = USAGE + "note: trace --help says which words there are\n"
SCRIPT = USAGE + "note: script takes one script in hexadecimal, after --text if that is wished, or reads scripts from standard input, one a line: trace script --text HEX\n"
WITNESS = USAGE + "note: witness reads a transaction and the outputs that it spends from standard input, and takes --text, --lines, both or no word: trace witness --text <FILE\n"
DUMP = USAGE + "note: dump takes no more words, and reads the dump of a book from standard input: trace dump <FILE\n"
PLAY = USAGE + "note: scenario reads the scenario from standard input, and takes --strict, --dump A or --dump B, or no word: trace scenario <FILE\n"
# inputs that are no text of a row: one without an end, and one that can't be read
ENDLESS, UNREADABLE = "/dev/zero", "/"
NOT_TEXT = b"51\n\xff"
# the greatest number of bytes of an input
LIMIT = 4_194_304
SCENARIO = '{"seeds":["%s","%s"],"channels":[],"events":[["blocks",2],["take","A",1]]}' % ("0a" * 32, "0b" * 32)
# a transaction with one input, whose script is the number 1, and the program that has this script's hash
ONE = "02000000000101" + "01" * 32 + "00000000" + "00" + "00000000" + "01" + "00" * 8 + "0151" + "010151" + "00000000\n"
PROGRAM = "00204ae81572f06e1b88fd5ced7a1a000945432e83e1551e6f721ee9c00b8cc33260"
# the same with a second input that has a script of its own, one byte
TWO = ONE.replace("000101", "000102", 1).replace("01" * 32 + "00000000" + "00" + "00000000", "01" * 32 + "00000000" + "00" + "00000000" + "02" * 32 + "00000000" + "0151" + "00000000")
# the transaction with the output that it spends on one line, and what is told of it
ONE_LINE = ONE.replace("\n", f";5 {PROGRAM}")
CLEAN_ONE = '{"input":0,"path":0,"counted":0,"height":1,"digest":"253718d653b5d70472113039231274aaa2670c97ca0c53f1114037fe8554401d"}\n'
OTHER_PROGRAM = "input 0 is refused: OtherProgram: the program is not of version 0 with the hash of a key or of a script\n"


# the first example of BIP 143 without its first input's script: its inputs, its outputs, and the signature and the key of its second input with the digest that they are for
FIRST, SECOND = "fff7f7881a8099afa6940d42d1e7f6362bec38171ea3edf433541db4e4ad969f0000000000eeffffff", "ef51e1b804cc89d182d279655c3aa89e815b1b309fe287d9b2b55d57b90ec68a0100000000ffffffff"
PAYS = "02202cb206000000001976a9148280b37df378db99f66f85c95a783a76ac7a6d5988ac9093510d000000001976a9143bde42dbee7e4dbe6a21b2d50ce2f0167faa815988ac"
DER = "304402203609e17b84f6a7d30c80bfa610b5b4542f32a8a0d5447a12fb1366d7f01cc44a0220573a954c4518331561406f90300e8f3358f51928d43c212a8caed02de67eebee01"
SIGNER = "025476c2e83188368da1ff3e292e7acafcdb3566bb0ad253f62fc70f07aeee6357"
SIGNED = f"01000000000102{FIRST}{SECOND}{PAYS}000247{DER}21{SIGNER}11000000\n625000000 2103c9f4836b9a4f77fc0d81f7bcb01b7f1b35916864b9476c241ce9fc198bd25432ac\n600000000 00141d0f172a0ecb48aee1be1f2687d2963ae33f71a1\n"
SIGNATURE = f"""{OTHER_PROGRAM}input 1 stops at opcode 4 (CHECKSIG), byte 24: FailedCheck TokenForm: a signature is neither empty nor a token of 66 bytes
  stack   {SIGNER}
  stack   {DER}
  digest  c37af31116d1b27caf68aae9e3ac82f1477929014d5b917657d0eb49478cb670
note: a real signature stands there (DER, BIP 66), which is not judged here, where tokens stand for signatures: what ran before it is in order
"""
# the notes on texts that are no transaction with its outputs
OUTPUTS = "note: after the transaction comes a line for each of its inputs: the value in satoshis of the output that it spends, a space, and the output's program\n"
BAD_COUNT = '{"refused":"BadCount","notes":["the last line is blank: leave it out"]}\n'
NO_HEX = '{"refused":"BadHex","notes":["the first line has the transaction in hexadecimal (BIP 144)"]}\n'
PSBT = "note: this is a PSBT (BIP 174), and not a transaction: give the transaction that it is finalized to, in hexadecimal\n"
NO_WITNESS = "note: a transaction without a witness is not read here: it is not signed yet, or spends outputs of older forms alone\n"
SCRIPTED = "note: an input has a script of its own (scriptSig), as inputs of older forms and nested ones have: only inputs with a witness alone are read here\n"


def program_of(script):
    """The program of an output to a script (P2WSH, BIP 141)."""
    return script_program(bytes.fromhex(script)).hex()


ANYONE = "note: anyone can spend by path 0: no signature of a key that the script fixes is asked for\n"
FALSE_END = "after the last opcode it leaves the empty item, which is false\n"
NO_PATH = "note: no witness satisfies the script by the rules of this profile: each branch ends as in consensus\n" + f"note: nobody can spend by the only branch: {FALSE_END}"
# an IF with a lock of 144 blocks in its first branch, a script with a fault, one without a path, and a line that is not hexadecimal
PAGES = f"""script 0
    0  IF
    1    PUSH 9000 (number 144)
    4    CHECKSEQUENCEVERIFY
    5  ELSE
    6    PUSH - (the empty item, number 0)
    7  ENDIF
program {program_of("63029000b2670068")}
path 0: 1 item, 12 weight units (12 with tokens)
  witness 01 <script>
  who   anyone
  with  slot 0 is true
  when  after 144 blocks
note: nobody can spend by the branch after the ELSE at opcode 3: {FALSE_END}{ANYONE}
script 1
    0  PUSH 81 (number -1)
program {program_of("0181ff")}
refused BadOpcode 2 at byte 2
note: byte 2 is ff, which is no opcode of Bitcoin
note: pushed before it: 81 (1 byte) at byte 0

script 2
    0  PUSH - (the empty item, number 0)
program {program_of("00")}
no path: by the rules here no witness satisfies this script
{NO_PATH}
script 3
refused BadHex
note: byte 0 of the text is n, which is no hexadecimal digit
"""
PAGE = f"""    0  PUSH 0aff (number -32522)
    3  DROP
    4  PUSH - (the empty item, number 0)
program {program_of("020aff7500")}
no path: by the rules here no witness satisfies this script
{NO_PATH}"""
# numbers of four, of five and of six bytes in a nested branch: six are no number
NUMBERS = f"""    0  IF
    1    NOTIF
    2      PUSH ffffff7f (number 2147483647)
    7    ELSE
    8      PUSH ffffffffff (number -549755813887)
   14    ENDIF
   15    PUSH ffffffffff7f
   22    EQUALVERIFY
   23  ENDIF
   24  PUSH 10 (number 16)
program {program_of("636404ffffff7f6705ffffffffff6806ffffffffff7f886860")}
path 0: 1 item, 28 weight units (28 with tokens)
  witness <empty> <script>
  who   anyone
  with  slot 0 is false, as the empty item is
  when  at once
note: nobody can spend by the branch after the IF at opcode 0, then the NOTIF at opcode 1: it ends at opcode 7, where ffffff7f (4 bytes) never equals what it is compared with
note: nobody can spend by the branch after the IF at opcode 0, then the ELSE at opcode 3: it ends at opcode 7, where ffffffffff (5 bytes) never equals what it is compared with
{ANYONE}"""
# a number that the script takes, with and without what may stand around it
ONE_PAGE = f"""    0  PUSH 01 (number 1)
program {program_of("51")}
path 0: 0 items, 3 weight units (3 with tokens)
  witness <script>
  who   anyone
  when  at once
{ANYONE}"""
LINES = """{"opening":{"events":2,"channels":[]}}
{"event":0,"words":["blocks",2],"answer":"ok height 2 txs 0","height":2,"mined":[]}
{"event":1,"words":["take","A",1],"answer":"refused NoJob","height":2}
{"end":{"height":2,"unspent":0,"value":0,"fees":0,"kept":{"A":[],"B":[]},"history":{"A":0,"B":0},"onchain":{"A":0,"B":0}}}
"""


def again(name, at):
    """The note on a member that stands again at a byte of a text of one line."""
    return f"the member {name} stands twice in its object, and the last one counts: again at byte {at}: line 1, column {at + 1}"


def opening_texts():
    """A scenario of two channels that are unlike in all their terms and opened by different sides, without its events; and its two lines."""
    with open(f"{TOP}/oracles/unlike_channels.json", encoding="utf-8") as file:
        scenario = dict(json.load(file), events=[])
    told = []
    for index, terms in enumerate(scenario["channels"]):
        # the id of a grant is a hash over its number
        txid = sha256d(b"grant", little_endian(index, 8))
        told.append({"funding": f"{txid.hex()}:0", "explorer": txid[::-1].hex(), **{name: terms[name] for name in ("capacity", "opener", "feerate", "dust", "delay", "minimum", "start")}})
    none = {"A": 0, "B": 0}
    value = sum(terms["capacity"] for terms in scenario["channels"])
    end = {"height": 0, "unspent": 2, "value": value, "fees": 0, "kept": {"A": [], "B": []}, "history": {"A": 2, "B": 2}, "onchain": none}
    lines = {"opening": {"events": 0, "channels": told}}, {"end": end}
    return json.dumps(scenario), "".join(json.dumps(line, separators=(",", ":")) + "\n" for line in lines)


# Of each call its words, what it reads, what it prints and its status. With status 2 it prints on standard error.
ROWS = [
    ("script --text", "63029000b2670068\r\n0181ff\n00\nno\n", PAGES, 1),
    ("script --text 020aff7500", "", PAGE, 0),
    ("script --text 636404ffffff7f6705ffffffffff6806ffffffffff7f886860", "", NUMBERS, 0),
    ("script", "", "", 0),
    *(("script --text", text, ONE_PAGE, 0) for text in ("51", "51\n", "0x51\n", " \t51 \r\n", " 0x51")),
    ("script --text 0x51", "", ONE_PAGE, 0),
    ("script --text", "0X51\n", "refused BadHex\nnote: the text begins with 0x: leave that out\n", 1),
    ("script", '5"\n', '{"bytes":null,"looks":null,"program":null,"opcodes":[],"refused":"BadHex","byte":null,"notes":["byte 1 of the text is \\", which is no hexadecimal digit"]}\n', 1),
    ("script", "5\\\n", '{"bytes":null,"looks":null,"program":null,"opcodes":[],"refused":"BadHex","byte":null,"notes":["byte 1 of the text is \\\\, which is no hexadecimal digit"]}\n', 1),
    ("scenario", SCENARIO, LINES, 0),
    ("scenario", *opening_texts(), 0),
    ("scenario", "{}", '{"refused":"BadShape","notes":["the scenario has no member seeds"]}\n', 1),
    ("scenario", "", '{"refused":"NotJson","notes":["the text ends too early, after byte 0: line 1, column 0"]}\n', 1),
    ("scenario", opening_texts()[0].replace('"opener": "A"', '"opener": "C"'), '{"refused":"BadShape","notes":["channel 0: its opener is not \\"A\\" or \\"B\\""]}\n', 1),
    # a refused event, and none
    ("scenario --strict", SCENARIO, LINES, 1),
    ("scenario --strict", *opening_texts(), 0),
    # a member that stands twice
    ("scenario", SCENARIO[:-1] + ',"channels":[]}', LINES.replace('"channels":[]', f'"channels":[],"notes":["{again("channels", len(SCENARIO))}"]'), 0),
    ("dump", '{"history":1,"version":2,"history":[]}', f'{{"entries":0,"channels":0,"notes":["{again("history", 25)}"]}}\n', 0),
    ("scenario", '{"a":1,"a":2}', f'{{"refused":"BadShape","notes":["the scenario has no member seeds","{again("a", 7)}"]}}\n', 1),
    ("scenario --dump A", SCENARIO, '{"history":[],"version":2}\n', 0),
    ("scenario --dump B", SCENARIO, '{"history":[],"version":2}\n', 0),
    ("scenario --dump A", "{}", '{"refused":"BadShape","notes":["the scenario has no member seeds"]}\n', 1),
    ("dump", '{"history":[],"version":2}', '{"entries":0,"channels":0}\n', 0),
    ("dump", "", '{"refused":"NotJson","number":1}\n', 1),
    ("dump", '{"history":[{"call":["sign",0],"seat":0}],"version":2}', '{"refused":"BadHistory 0","number":4}\n', 1),
    ("dump", '{"history":[],"version":3}', '{"refused":"BadShape","number":2}\n', 1),
    ("dump", '{"history":[{"call":["close",0],"seat":0}],"version":2}', '{"refused":"BadShape","number":2}\n', 1),
    ("dump", '{"history":[{"call":["close",0],"seat":0}],"version":3}', '{"refused":"BadHistory 0","number":4}\n', 1),
    ("witness", "", '{"refused":"Truncated"}\n', 1),
    # the lines after a transaction: how many there are, and what each has
    ("witness --text", ONE, "refused BadCount\n" + OUTPUTS, 1),
    ("witness --text", ONE + "5 00\n6 00\n", "refused BadCount\n" + OUTPUTS, 1),
    ("witness --text", ONE + f"5 {PROGRAM}\n\n", "refused BadCount\nnote: the last line is blank: leave it out\n", 1),
    ("witness --text", ONE + "5\n", "refused BadLine 2\n" + OUTPUTS, 1),
    ("witness --text", ONE + "-5 00\n", "refused BadLine 2\n" + OUTPUTS, 1),
    ("witness --text", ONE + "5 0g\n", "refused BadLine 2\n" + OUTPUTS, 1),
    ("witness --text", ONE + "2100000000000001 00\n", "refused BadLine 2\n" + OUTPUTS, 1),
    ("witness --text", ONE + f"0.1 {PROGRAM}\n", "refused BadLine 2\nnote: a value is a whole number of satoshis: 0.1 bitcoins are 10000000\n", 1),
    ("witness --text", ONE + "5 bc1qw508d6qejxtdg4y5r3zarvary0c5xw7kv8f3t4\n", "refused BadLine 2\nnote: this looks like an address: give the output's program, in hexadecimal\n", 1),
    ("witness --text", ONE + "5 0014\n", OTHER_PROGRAM, 1),
    ("witness --text", ONE + f"5 {PROGRAM}\r\n", "input 0 runs clean on path 0: 0 opcodes counted, 1 entry at most\n", 0),
    # each line a text, and its answer that of the text: of two inputs each, of a refusal, and of no text
    ("witness --lines", "", "", 0),
    ("witness --lines", "\n", '{"refused":"Truncated"}\n', 1),
    ("witness --lines", ONE_LINE, CLEAN_ONE, 0),
    ("witness --lines", ONE_LINE + "\n" + ONE_LINE + "\r\n", CLEAN_ONE + CLEAN_ONE, 0),
    ("witness --lines", ONE_LINE + "\n0g\n" + ONE_LINE + "\n", CLEAN_ONE + NO_HEX + CLEAN_ONE, 1),
    ("witness --lines", ONE_LINE + ";\n", BAD_COUNT, 1),
    ("witness --lines", ONE, '{"refused":"BadCount","notes":["%s"]}\n' % OUTPUTS[6:-1], 1),
    ("witness --text --lines", ONE_LINE + "\n", "input 0 runs clean on path 0: 0 opcodes counted, 1 entry at most\n", 0),
    ("witness --lines --text", "", WITNESS, 2),
    ("witness --lines", NOT_TEXT, '{"refused":"Truncated"}\n{"refused":"BadHex"}\n', 1),
    ("witness --lines", ENDLESS, '{"refused":"TooLong"}\n', 1),
    ("witness --lines", UNREADABLE, '{"refused":"ReadFailed"}\n', 1),
    ("witness --lines", "z" * (LIMIT + 1), '{"refused":"TooLong"}\n', 1),
    ("witness --lines", ONE_LINE + "\n" + "z" * LIMIT, CLEAN_ONE + '{"refused":"TooLong"}\n', 1),
    # first lines that are no transaction
    ("witness --text", "0g\n", "refused BadHex\nnote: the first line has the transaction in hexadecimal (BIP 144)\n", 1),
    ("witness --text", "0x02\n", "refused BadHex\nnote: the transaction begins with 0x: leave that out\n", 1),
    ("witness --text", "020\n", "refused BadHex\nnote: the transaction has an odd number of digits: a byte has two\n", 1),
    ("witness --text", "cHNidP8BAHUCAAAA\n", "refused BadHex\n" + PSBT, 1),
    ("witness", "cHNidP8BAHUCAAAA\n", '{"refused":"BadHex","notes":["%s"]}\n' % PSBT[6:-1], 1),
    ("witness --text", "70736274ff01007502000000\n", "refused BadMarker\n" + PSBT, 1),
    ("witness --text", "020000000001fd0100\n5\n", "refused LongCount\n", 1),
    ("witness --text", "0200000001\n", "refused BadMarker\n" + NO_WITNESS, 1),
    ("witness --text", ONE.replace("010151", "00"), "refused NoWitness\n" + NO_WITNESS, 1),
    # a second input with a script of one byte, and a count of inputs that is above its limit
    ("witness --text", TWO, "refused OverLimit\n" + SCRIPTED, 1),
    ("witness --text", "020000000001feffffffff\n", "refused OverLimit\n", 1),
    # a real signature
    ("witness --text", SIGNED, SIGNATURE, 1),
    # wrong words, which are found before any input is read
    ("scripts", "", HELP, 2),
    ("-h", "", HELP, 2),
    ("script 51 51", "", SCRIPT, 2),
    ("script 51 --text", "", SCRIPT, 2),
    ("witness 51", "", WITNESS, 2),
    ("dump --text", "", DUMP, 2),
    ("scenario --text", "", PLAY, 2),
    ("scenario --dump C", "", PLAY, 2),
    ("scenario --strict --dump A", "", PLAY, 2),
    ("witness --text 51", ENDLESS, WITNESS, 2),
    ("witness --text 51", UNREADABLE, WITNESS, 2),
    ("", ENDLESS, HELP, 2),
    ("", UNREADABLE, HELP, 2),
    # input that is too long, that can't be read, or that is not text
    ("script", ENDLESS, '{"bytes":null,"looks":null,"program":null,"opcodes":[],"refused":"TooLong","byte":null}\n', 1),
    ("script", UNREADABLE, '{"bytes":null,"looks":null,"program":null,"opcodes":[],"refused":"ReadFailed","byte":null}\n', 1),
    ("script --text", NOT_TEXT, "refused BadHex\n", 1),
    ("witness --text", ENDLESS, "refused TooLong\n", 1),
    ("witness --text", UNREADABLE, "refused ReadFailed\n", 1),
    ("witness", NOT_TEXT, '{"refused":"BadHex"}\n', 1),
    ("scenario", ENDLESS, '{"refused":"TooLong"}\n', 1),
    ("scenario", UNREADABLE, '{"refused":"ReadFailed"}\n', 1),
    # input of as many bytes as there may be, and of one more
    ("script", "z" * LIMIT, '{"bytes":null,"looks":null,"program":null,"opcodes":[],"refused":"BadHex","byte":null,"notes":["byte 0 of the text is z, which is no hexadecimal digit"]}\n', 1),
    ("script", "z" * (LIMIT + 1), '{"bytes":null,"looks":null,"program":null,"opcodes":[],"refused":"TooLong","byte":null}\n', 1),
    ("witness", "z" * LIMIT, '{"refused":"BadHex","notes":["the first line has the transaction in hexadecimal (BIP 144)"]}\n', 1),
    ("witness", "z" * (LIMIT + 1), '{"refused":"TooLong"}\n', 1),
    ("scenario", SCENARIO.ljust(LIMIT), LINES, 0),
    ("scenario", SCENARIO.ljust(LIMIT + 1), '{"refused":"TooLong"}\n', 1),
    ("dump", '{"history":[],"version":2}'.ljust(LIMIT), '{"entries":0,"channels":0}\n', 0),
    ("dump", '{"history":[],"version":2}'.ljust(LIMIT + 1), '{"refused":"TooLong","number":6}\n', 1),
    ("scenario", NOT_TEXT, '{"refused":"NotJson","notes":["invalid JSON at byte 3: line 2, column 1"]}\n', 1),
    ("dump", ENDLESS, '{"refused":"TooLong","number":6}\n', 1),
    ("dump", UNREADABLE, '{"refused":"ReadFailed","number":5}\n', 1),
    ("dump", NOT_TEXT, '{"refused":"NotJson","number":1}\n', 1),
]


def program(name):
    """The program that ./trace or ./enforce runs: without the command, which writes on standard error too."""
    # a call that the whole program answers, so that it is built; what it answers does not matter
    words, room = {"trace": (["script", "51"], "out/trace"), "enforce": (["run"], "out")}[name]
    subprocess.run([f"./{name}", *words], stdin=subprocess.DEVNULL, stdout=subprocess.DEVNULL, stderr=subprocess.DEVNULL)
    said = subprocess.run([f"./{name}", "--version"], capture_output=True, text=True, check=True).stdout
    sources = said.split("sources ")[1].split()[0]
    return os.path.abspath([*glob.glob(f"{room}/proved/{sources}.*"), *glob.glob(f"{room}/unproved/{sources}.*")][0])


def noted(words, printed):
    """What `trace scenario` writes on standard error: the notes of its first line, and after --strict the first refused event."""
    if words[0] != "scenario":
        return ""
    lines = [json.loads(it) for it in printed.splitlines()]
    notes = lines[0].get("notes") or lines[0].get("opening", {}).get("notes", [])
    refused = [it for it in lines if it.get("answer", "").startswith("refused ")]
    if "--strict" in words and refused:
        why = refused[0]["answer"].removeprefix("refused ")
        notes = [*notes, f"event {refused[0]['event']} is the first that was refused, {why}"]
    return "".join(f"note: {it}\n" for it in notes)


def is_told(command, words, given, printed, status):
    """Whether a call prints and returns this."""
    path, text = (given, None) if given in (ENDLESS, UNREADABLE) else (None, given if isinstance(given, bytes) else given.encode())
    wanted = ("", printed, 2) if status == 2 else (printed, noted(words, printed), status)
    fd = os.open(path, os.O_RDONLY) if path else None
    ran = subprocess.run([command, *words], **({"stdin": fd} if path else {"input": text}), capture_output=True)
    if path:
        os.close(fd)
    answered = (ran.stdout.decode(), ran.stderr.decode(), ran.returncode)
    if answered != wanted:
        print(f"{' '.join(words)}: {answered} in place of {wanted}")
    return answered == wanted


def is_noticed(command, words, given):
    """Whether a call whose every write fails ends with status 1."""
    with open("/dev/full", "wb") as full:
        ran = subprocess.run([command, *words], input=given.encode(), stdout=full, stderr=full)
    if ran.returncode != 1:
        print(f"{' '.join(words)}: status {ran.returncode} where nothing can be written")
    return ran.returncode == 1


def main():
    os.chdir(TOP)
    command = program("trace")
    unwritten = [(words.split(), given) for words, given, printed, _ in ROWS if printed and given not in (ENDLESS, UNREADABLE, NOT_TEXT)]
    differ = sum(not is_told(command, words.split(), given, printed, status) for words, given, printed, status in ROWS)
    differ += sum(not is_noticed(command, *it) for it in unwritten)
    print(f"answers: {len(ROWS)} calls, {len(unwritten)} of them again where nothing can be written: {differ} differ")
    return int(differ > 0)


if __name__ == "__main__":
    if sys.argv[1:] == ["--help"]:
        raise SystemExit(__doc__)
    sys.exit(main())
