"""The first answers that docs/BINDINGS.md and the pages of the bindings show, and the wallet in C, made as their readers make them: over what `./enforce --install-library` puts into a folder. Then the errors: of words that the wallet does
not read, and of a library that has another ABI number.

Each is a name, what has to be printed, and what is. What the page shows stands there beside the call, as a comment. Of a language that is not here there is none.
"""
import os
import re
import shutil
import subprocess
import sys

sys.dont_write_bytecode = True
TOP = os.path.dirname(os.path.dirname(os.path.dirname(os.path.abspath(__file__))))
BINDINGS = f"{TOP}/bindings"
SECONDS = 600
# The to_local script of BOLT 3 with these keys and 144 blocks, and what is said of it.
REVOCATION, DELAYED = "02" + 31 * "00" + "01", "03" + 31 * "00" + "02"
TO_LOCAL = f"6321{REVOCATION}67029000b27521{DELAYED}68ac"
WALLET = "it is the to_local script with these keys\npath 0: 2 items\npath 1: 2 items, after 144 blocks\n"


def write(path, text):
    os.makedirs(os.path.dirname(path), exist_ok=True)
    with open(path, "w", encoding="utf-8") as file:
        file.write(text)
    return path


def read(path):
    with open(path, encoding="utf-8") as file:
        return file.read()


def block(language):
    """The first block of the page in a language."""
    return re.search(rf"^```{language}\n(.*?)^```$", read(f"{TOP}/docs/BINDINGS.md"), re.M | re.S)[1]


def output_of(commands, **setting):
    """What the last of commands prints, or what the first that fails says."""
    for words in commands:
        done = subprocess.run(words, capture_output=True, text=True, timeout=SECONDS, **setting)
        if done.returncode != 0:
            return f"{' '.join(words)}: {done.stdout[-1500:]}{done.stderr[-1500:]}"
    return done.stdout


def status_of(words, **setting):
    """The status of a command, and what it says."""
    done = subprocess.run(words, capture_output=True, text=True, timeout=SECONDS, **setting)
    return done.returncode, done.stdout + done.stderr


def found(wanted, told):
    """What is wanted, where it is among what is told."""
    return wanted if wanted in told else told


def in_c(installed, other, work):
    """The page's program, the call at the head of enforce.h, and the wallet, by the flags of pkg-config."""
    setting = {**os.environ, "PKG_CONFIG_PATH": f"{installed}/lib/pkgconfig"}
    flags = output_of([["pkg-config", "--cflags", "--libs", "enforce"]], env=setting).split()
    head = "\n".join(re.findall(r"^     (.*)$", read(f"{BINDINGS}/c/enforce.h").split("*/")[0], re.M))
    programs = [
        ("first", write(f"{work}/first.c", block("c")), [], re.search(r"/\* (Done.*?) \*/", block("c"))[1] + "\n"),
        ("head", write(f"{work}/head.c", f'#include <enforce.h>\n#include <stdio.h>\nint main(void) {{\n{head}\nprintf("%zu\\n", answer.paths);\n}}\n'), [], re.search(r"answer\.paths is (\d+)", head)[1] + "\n"),
        ("wallet", f"{BINDINGS}/c/wallet.c", [TO_LOCAL, REVOCATION, "144", DELAYED], WALLET),
    ]
    warned = ["cc", "-Wall", "-Wextra", "-Werror"]
    for name, source, words, wanted in programs:
        yield f"C {name}", wanted, output_of([[*warned, "-o", f"{work}/{name}", source, *flags], [f"{work}/{name}", *words]])
    for why, words in (("a short key", [TO_LOCAL, REVOCATION[:-2], "144", DELAYED]), ("a delay of 17 bits", [TO_LOCAL, REVOCATION, "65680", DELAYED]), ("a sign", [TO_LOCAL, REVOCATION, "+144", DELAYED])):
        yield f"C wallet, {why}", (2, ""), status_of([f"{work}/wallet", *words])
    made = output_of([[*warned, "-o", f"{work}/other", f"{BINDINGS}/c/wallet.c", f"-I{other}/include", f"{other}/lib/libenforce.a"]])
    yield "C wallet, another ABI", (2, ""), (made, "") if made else status_of([f"{work}/other", *programs[2][2]])


def in_rust(installed, other, work):
    """The page's lines, the crate's tests, and its page, as cargo makes them without a network. The page is made where no library is, too."""
    place = shutil.copytree(f"{BINDINGS}/rust", f"{work}/rust")
    write(f"{place}/examples/first.rs", f"fn main() -> Result<(), enforce::Error> {{\n{block('rust')}println!(\"{{}}\", paths.len());\nOk(())\n}}\n")
    told = re.search(r"paths\.len\(\), (\d+)", block("rust"))[1]
    setting = {"cwd": place, "env": {**os.environ, "ENFORCE_LIB_DIR": f"{installed}/lib", "CARGO_TARGET_DIR": f"{work}/target", "RUSTDOCFLAGS": "-D warnings"}}
    yield "Rust first", f"{told}\n", output_of([["cargo", "run", "--offline", "--quiet", "--example", "first"]], **setting)
    tested = output_of([["cargo", "test", "--offline", "--quiet"]], **setting)
    counts = re.findall(r"(\d+) passed; (\d+) failed", tested)
    wanted = 1 + len(re.findall(r"^#\[test\]$", read(f"{place}/tests/errors.rs"), re.M))
    yield "Rust tests", f"{wanted} passed, 0 failed", "{} passed, {} failed".format(*(sum(map(int, it)) for it in zip(*counts))) if counts else tested
    without = {**os.environ, "PKG_CONFIG_PATH": work, "PKG_CONFIG_LIBDIR": work, "CARGO_TARGET_DIR": f"{work}/without", "RUSTDOCFLAGS": "-D warnings"}
    without.pop("ENFORCE_LIB_DIR", None)
    for name, given in (("", setting), (", without a library", {"cwd": place, "env": without})):
        made = output_of([["cargo", "doc", "--offline", "--quiet", "--no-deps"]], **given)
        yield f"Rust page{name}", "", made if made or os.path.isfile(f"{given['env']['CARGO_TARGET_DIR']}/doc/enforce/index.html") else "there is no page"
    by_name = {**os.environ, "PKG_CONFIG_PATH": f"{installed}/lib/pkgconfig", "CARGO_TARGET_DIR": f"{work}/by_name"}
    by_name.pop("ENFORCE_LIB_DIR", None)
    first = ["cargo", "run", "--offline", "--quiet", "--example", "first"]
    yield "Rust first, by pkg-config", f"{told}\n", output_of([first], cwd=place, env=by_name)
    wanted = f"Error: OtherAbi {{ declared: {number_of(installed)}, linked: 4096 }}\n"
    yield "Rust first, another ABI", wanted, found(wanted, status_of(first, cwd=place, env={**by_name, "PKG_CONFIG_PATH": f"{other}/lib/pkgconfig"})[1])


def number_of(installed):
    """The ABI number of what is installed."""
    return re.search(r"^abi=(\d+)$", read(f"{installed}/lib/pkgconfig/enforce.pc"), re.M)[1]


def in_python(installed, other, work):
    """The page's lines, the tests of the module's page, and the package as pip puts it into a folder."""
    *lines, last = block("python").splitlines()
    setting = {**os.environ, "ENFORCE_LIBRARY": f"{installed}/lib/libenforce.so", "PYTHONPATH": f"{BINDINGS}/python", "PYTHONDONTWRITEBYTECODE": "1"}
    program = write(f"{work}/first.py", "\n".join([*lines, f"print({last.split('  #')[0]})\n"]))
    told = last.split("# ")[1] + "\n"
    yield "Python first", told, output_of([[sys.executable, program]], env=setting)
    by_name = {**setting, "LD_LIBRARY_PATH": f"{installed}/lib"}
    by_name.pop("ENFORCE_LIBRARY")
    yield "Python first, by its soname", told, output_of([[sys.executable, program]], env=by_name)
    tests = "import doctest, enforce; print(doctest.testmod(enforce))"
    yield "Python tests of its page", "TestResults(failed=0, attempted=3)\n", output_of([[sys.executable, "-c", tests]], env=setting)
    wanted = f"enforce.OtherAbi: the library has ABI 4096, and these declarations have {number_of(installed)}\n"
    yield "Python first, another ABI", wanted, found(wanted, status_of([sys.executable, program], env={**setting, "ENFORCE_LIBRARY": f"{other}/lib/libenforce.so"})[1])
    builder = next((it for it in (sys.executable, "/usr/bin/python3") if os.path.exists(it) and status_of([it, "-c", "import setuptools.build_meta, pip, wheel"])[0] == 0), None)
    if builder:
        place = shutil.copytree(f"{BINDINGS}/python", f"{work}/python")
        pip = [builder, "-m", "pip", "install", "--quiet", "--no-index", "--no-deps", "--no-build-isolation", "--disable-pip-version-check", "--root-user-action=ignore", "--target", f"{work}/package", place]
        yield "Python first, as a package", told, output_of([pip, [sys.executable, program]], env={**setting, "PYTHONPATH": f"{work}/package"})
        yield "Python package, its types", True, os.path.isfile(f"{work}/package/enforce/py.typed")


def in_go(installed, other, work):
    """The page's lines, and the examples of the package."""
    place = shutil.copytree(f"{BINDINGS}/go", f"{work}/go")
    write(f"{place}/first/main.go", f'package main\n\nimport (\n\t"fmt"\n\n\t"enforce"\n)\n\nfunc main() {{\n{block("go")}}}\n')
    setting = {**os.environ, "GOFLAGS": "-mod=mod", "GOPROXY": "off", "GOCACHE": f"{work}/go_cache", "CGO_ENABLED": "1", "PKG_CONFIG_PATH": f"{installed}/lib/pkgconfig"}
    yield "Go first", re.search(r"// (.*)$", block("go"), re.M)[1] + "\n", output_of([["go", "run", "./first"]], cwd=place, env=setting)
    examples = len(re.findall(r"^func (?:Example|Test)", read(f"{place}/example_test.go"), re.M))
    tested = output_of([["go", "vet", "."], ["go", "test", "-v", "."]], cwd=place, env=setting)
    yield "Go examples", examples, len(re.findall(r"^--- PASS", tested, re.M)) or tested
    wanted = f"0 the library has ABI 4096, and enforce.h has {number_of(installed)}\n"
    # what pkg-config says is not among what Go's cache knows a build by
    another = {**setting, "PKG_CONFIG_PATH": f"{other}/lib/pkgconfig", "CGO_LDFLAGS": f"-L{other}/lib"}
    yield "Go first, another ABI", wanted, output_of([["go", "run", "./first"]], cwd=place, env=another)


def answers(installed, other, work, is_here):
    for wanted, maker in ((["cc", "pkg-config"], in_c), (["cargo"], in_rust), ([sys.executable], in_python), (["go"], in_go)):
        if all(is_here([it]) for it in wanted):
            yield from maker(installed, other, work)
