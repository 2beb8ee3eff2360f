"""The declarations of the library for C, in C, Rust and Python, as they are drawn from the sources of crates/enforce_c, and its kinds in Python and Go (kinds.py).

Of each file of src/, in the order of the `mod` lines with lib.rs's own items last: the public constants, the structs that are laid out as in C, and the exports. The doc comments go along, and
with each export its clause, and the file that defines the word of it.
"""
import glob
import os
import re

import kinds

TOP = os.path.dirname(os.path.dirname(os.path.dirname(os.path.abspath(__file__))))
SOURCES = f"{TOP}/crates/enforce_c/src"
SPECS = "crates/enforce_c/specs"
FILES = {
    "bindings/c/enforce.h": "header",
    "bindings/rust/src/raw.rs": "rust",
    "bindings/python/enforce/raw.py": "python",
    "bindings/python/enforce/kinds.py": "python_kinds",
    "bindings/go/kinds.go": "go_kinds",
}
NOTE = "Drawn from crates/enforce_c/src by `bindings/library --write`: do not edit."
# The size in bytes of a number, and its name in C, Rust and Python.
NUMBERS = {
    "bool": (1, "bool", "bool", "c_bool"),
    "u8": (1, "uint8_t", "u8", "c_uint8"),
    "u16": (2, "uint16_t", "u16", "c_uint16"),
    "u32": (4, "uint32_t", "u32", "c_uint32"),
    "u64": (8, "uint64_t", "u64", "c_uint64"),
    "usize": (8, "size_t", "usize", "c_size_t"),
}
DOC = r"((?:[ \t]*///[^\n]*\n)*)"
CONSTANT = re.compile(DOC + r"pub const (\w+): u32 = (\w+);\n")
STRUCT = re.compile(DOC + r"#\[repr\(C\)\]\n(?:#\[[^\n]*\]\n)*pub struct (\w+) \{\n(.*?)^\}\n", re.M | re.S)
FIELD = re.compile(DOC + r"    pub (\w+): ([^,]+),\n")
EXPORT = re.compile(DOC + r"#\[unsafe\(no_mangle\)\]\n(?:#\[[^\n]*\]\n)*pub extern \"C\" fn (\w+)\(([^)]*)\)(?: -> (\w+))?\n    ensures \{ (.*?) \}\n\{\n", re.S)
ARRAY = re.compile(r"\[(\w+); (\d+)\]")


def stop(what):
    raise SystemExit(f"library: {what}")


def doc_line(doc):
    """A doc comment as one line of text."""
    return " ".join(line.strip().removeprefix("///").strip() for line in doc.splitlines())


def clause(text):
    """A clause as one line of text, with the file that defines its word."""
    line = " ".join(text.split())
    found = [file for file in sorted(glob.glob(f"{TOP}/{SPECS}/*.antt")) if re.search(rf"^abbrev pub {line.split()[0]} :", open(file, encoding="utf-8").read(), re.M)]
    return f"{line} ({SPECS}/{os.path.basename(found[0])})" if found else line


def c_name(name):
    """PathRow is enforce_path_row."""
    return "enforce" + re.sub(r"([A-Z])", lambda found: "_" + found[1].lower(), name)


def python_name(name):
    return name


class Declared:
    """What the sources declare: constants by file, structs, and exports."""

    def __init__(self):
        with open(f"{SOURCES}/lib.rt", encoding="utf-8") as file:
            root = file.read()
        self.constants, self.structs, self.exports = {}, [], []
        for name in [*re.findall(r"^mod (\w+);", root, re.M), "lib"]:
            with open(f"{SOURCES}/{name}.rt", encoding="utf-8") as file:
                self.read(name, file.read())
        self.sizes = {}
        for name, _, fields in self.structs:
            self.sizes[name] = self.layout(fields)
        exports = len(re.findall(r"no_mangle", "".join(open(f"{SOURCES}/{it}", encoding="utf-8").read() for it in sorted(os.listdir(SOURCES)))))
        if exports != len(self.exports):
            stop(f"of {exports} exports {len(self.exports)} were read")

    def read(self, name, text):
        found = [(it[2], int(it[3], 0), doc_line(it[1])) for it in CONSTANT.finditer(text)]
        if found:
            self.constants[name] = found
        for it in STRUCT.finditer(text):
            fields = [(field[2], field[3], doc_line(field[1])) for field in FIELD.finditer(it[3])]
            if len(fields) != len(re.findall(r"^    pub ", it[3], re.M)):
                stop(f"not all fields of {it[2]} were read")
            self.structs.append((it[2], doc_line(it[1]), fields))
        for it in EXPORT.finditer(text):
            params = [tuple(part.strip().split(": ", 1)) for part in it[3].split(",\n") for part in part.split(", ") if part.strip().strip(",")]
            params = [(param.strip(), kind.strip().rstrip(",")) for param, kind in params]
            self.exports.append((it[2], [it2 for it2 in params if it2[1] != "Global"], it[4], doc_line(it[1]), clause(it[5])))

    def layout(self, fields):
        """The size of a struct and the offset of each field, by the rules of C."""
        at, most, offsets = 0, 1, []
        for _, kind, _ in fields:
            array = ARRAY.fullmatch(kind)
            size = NUMBERS[array[1] if array else kind][0]
            most, at = max(most, size), -(-at // size) * size
            offsets.append(at)
            at += size * (int(array[2]) if array else 1)
        return -(-at // most) * most, offsets

    def statuses(self):
        return self.constants["statuses"]


def status_word(name):
    """BAD_OPCODE is BadOpcode, the word of docs/ENFORCE.md."""
    return "".join(part.capitalize() for part in name.split("_"))


# What is said of a status that the declarations do not have.
UNKNOWN = "These declarations do not have this status."


def text_in_quotes(text):
    """A text as C and Rust write it."""
    return '"' + text.replace("\\", "\\\\").replace('"', '\\"') + '"'


# ---- C


def c_parameter(name, kind, structs):
    found = re.fullmatch(r"&(mut )?\[(\w+)\]", kind)
    if found:
        return f"{'' if found[1] else 'const '}{c_type(found[2], structs)} *{name}, size_t {name}_length"
    found = re.fullmatch(r"&(mut )?\[(\w+); (\d+)\]", kind)
    if found:
        return f"{'' if found[1] else 'const '}{c_type(found[2], structs)} (*{name})[{found[3]}]"
    found = re.fullmatch(r"&(mut )?(\w+)", kind)
    if found:
        return f"{'' if found[1] else 'const '}{c_type(found[2], structs)} *{name}"
    return f"{c_type(kind, structs)} {name}"


def c_type(kind, structs):
    if kind in structs:
        return c_name(kind)
    if kind not in NUMBERS:
        stop(f"the type {kind} is not one that is drawn")
    return NUMBERS[kind][1]


def header(told):
    names = [name for name, _, _ in told.structs]
    lines = [
        f"/* enforce.h: the ways through a script, the scripts of BOLT 3, the claims on a revoked commitment, and the unsigned spend of claims, proved, for programs in C. {NOTE}",
        "",
        "     uint8_t script[] = {0x63, 0x51, 0x67, 0x52, 0x68}, bytes[64]; // IF 1 ELSE 2 ENDIF",
        "     enforce_path_row paths[64] = {0}; enforce_fact_row facts[64] = {0}; enforce_answer answer = {0};",
        "     enforce_script_list(script, 5, paths, 64, facts, 64, bytes, 64, &answer); // ENFORCE_DONE, and answer.paths is 2",
        "",
        "   Nothing here signs, and nothing checks a signature. An accepted claim can't fail with tokens, or with valid signatures where none is",
        "   measured: enforce_unsigned_spend refuses the others. What is proved of a call stands at it as a clause of the source: a name has .old before the call and",
        "   .new after it, and result is the status. docs/BINDINGS.md says the same in words, and what a caller owes:",
        "   pointers that are valid for their lengths, outputs that are initialised, and outputs that overlap nothing else. */",
        "#ifndef ENFORCE_H",
        "#define ENFORCE_H",
        "",
        "#include <stdbool.h>",
        "#include <stddef.h>",
        "#include <stdint.h>",
        "",
        "#ifdef __cplusplus",
        'extern "C" {',
        "#endif",
        "",
    ]
    for kind, what, constants in kinds.groups(told):
        lines += [f"/* {kinds.sentence(what)} */", f"enum {c_name(kind)} {{"] if kind else ["enum {"]
        lines += [f"    ENFORCE_{name} = {kinds.shown(kind, number)}, /* {doc} */" for _, name, number, doc in constants]
        lines += ["};", ""]
    for name, doc, fields in told.structs:
        lines += [f"/* {doc} */", "typedef struct {"]
        for field, kind, text in fields:
            array = ARRAY.fullmatch(kind)
            shown = f"    {c_type(array[1], names)} {field}[{array[2]}];" if array else f"    {c_type(kind, names)} {field};"
            lines.append(f"{shown} /* {text} */" if text else shown)
        lines += [f"}} {c_name(name)};", ""]
    for name, params, result, doc, proved in told.exports:
        words = ", ".join(c_parameter(param, kind, names) for param, kind in params) or "void"
        lines += [f"/* {doc}", "", f"   Proved: {proved} */", f"{c_type(result, names) if result else 'void'} {name}({words});", ""]
    lines += ["/* The word for a status. */", "static inline const char *enforce_name(uint32_t status) {", "    switch (status) {"]
    lines += [f'    case ENFORCE_{name}: return "{status_word(name)}";' for name, _, _ in told.statuses()]
    lines += ['    default: return "Unknown";', "    }", "}", "", "/* What a status says. */", "static inline const char *enforce_sentence(uint32_t status) {", "    switch (status) {"]
    lines += [f"    case ENFORCE_{name}: return {text_in_quotes(doc)};" for name, _, doc in told.statuses()]
    lines += [f"    default: return {text_in_quotes(UNKNOWN)};", "    }", "}", "", "#ifdef __cplusplus", "}", "#endif", ""]
    lines += ["#if defined(__STDC_VERSION__) && __STDC_VERSION__ >= 201112L"]
    for name, _, fields in told.structs:
        size, offsets = told.sizes[name]
        lines.append(f'_Static_assert(sizeof({c_name(name)}) == {size}, "the layout of {c_name(name)}");')
        lines += [f'_Static_assert(offsetof({c_name(name)}, {field[0]}) == {at}, "the layout of {c_name(name)}");' for field, at in zip(fields, offsets)]
    lines += ["#endif", "", "#endif", ""]
    return "\n".join(lines)


# ---- Rust


def rust_type(kind):
    array = ARRAY.fullmatch(kind)
    return f"[{array[1]}; {array[2]}]" if array else kind


def rust_parameters(name, kind):
    found = re.fullmatch(r"&(mut )?\[(\w+)\]", kind)
    if found:
        return [f"{name}: *{'mut' if found[1] else 'const'} {found[2]}", f"{name}_length: usize"]
    found = re.fullmatch(r"&(mut )?(.+)", kind)
    if found:
        return [f"{name}: *{'mut' if found[1] else 'const'} {rust_type(found[2])}"]
    return [f"{name}: {kind}"]


def rust(told):
    lines = [f"//! {NOTE}", "//! The exports of the library, its structs and its numbers.", ""]
    for constants in told.constants.values():
        for name, number, doc in constants:
            lines += [f"/// {doc}", f"pub const {name}: u32 = {number:#x};"]
        lines.append("")
    for name, doc, fields in told.structs:
        lines += [f"/// {doc}", "#[repr(C)]", "#[derive(Clone, Copy, Debug, PartialEq, Eq)]", f"pub struct {name} {{"]
        for field, kind, text in fields:
            lines += [f"    /// {text}"] if text else []
            lines.append(f"    pub {field}: {rust_type(kind)},")
        size, offsets = told.sizes[name]
        lines += ["}", "", "const _: () = {", f"    assert!(size_of::<{name}>() == {size});"]
        lines += [f"    assert!(core::mem::offset_of!({name}, {field[0]}) == {at});" for field, at in zip(fields, offsets)]
        lines += ["};", ""]
    lines.append('unsafe extern "C" {')
    for name, params, result, doc, proved in told.exports:
        words = ", ".join(word for param, kind in params for word in rust_parameters(param, kind))
        lines += [f"    /// {doc}", "    ///", f"    /// Proved: `{proved}`", f"    pub fn {name}({words}){f' -> {result}' if result else ''};"]
    lines += ["}", "", "/// The word for a status.", "pub fn name(status: u32) -> &'static str {", "    match status {"]
    lines += [f'        {name} => "{status_word(name)}",' for name, _, _ in told.statuses()]
    lines += ['        _ => "Unknown",', "    }", "}", "", "/// What a status says.", "pub fn sentence(status: u32) -> &'static str {", "    match status {"]
    lines += [f"        {name} => {text_in_quotes(doc)}," for name, _, doc in told.statuses()]
    lines += [f"        _ => {text_in_quotes(UNKNOWN)},", "    }", "}", ""]
    return "\n".join(lines)


# ---- Python


def python_type(kind, names):
    array = ARRAY.fullmatch(kind)
    if array:
        return f"{NUMBERS[array[1]][3]} * {array[2]}"
    return kind if kind in names else NUMBERS[kind][3]


def python_parameters(kind, names):
    found = re.fullmatch(r"&(?:mut )?\[(\w+)\]", kind)
    if found:
        return [f"POINTER({python_type(found[1], names)})", "c_size_t"]
    found = re.fullmatch(r"&(?:mut )?(.+)", kind)
    if found:
        return [f"POINTER({python_type(found[1], names)})"]
    return [python_type(kind, names)]


def python(told):
    names = [name for name, _, _ in told.structs]
    lines = [f'"""The exports of the library, its structs and its numbers. {NOTE}"""']
    lines += ["from ctypes import CDLL, POINTER, Structure, c_bool, c_size_t, c_uint8, c_uint16, c_uint32, c_uint64, sizeof", ""]
    for constants in told.constants.values():
        for name, number, doc in constants:
            lines += [f"# {doc}", f"{name} = {number:#x}"]
        lines.append("")
    lines.append("NAMES = {")
    lines += [f'    {name}: "{status_word(name)}",' for name, _, _ in told.statuses()]
    lines += ["}", ""]
    for name, doc, fields in told.structs:
        lines += ["", f"class {name}(Structure):", f'    """{doc}"""', "", "    _fields_ = ["]
        lines += [f'        ("{field}", {python_type(kind, names)}),' for field, kind, _ in fields]
        lines += ["    ]", ""]
    lines += ["", "LAYOUTS = {"]
    for name, _, fields in told.structs:
        size, offsets = told.sizes[name]
        lines.append(f"    {name}: ({size}, [{', '.join(map(str, offsets))}]),")
    lines += ["}", "", "", "def declare(library: CDLL) -> None:", '    """Gives the exports of a loaded library their types."""']
    for name, params, result, _, proved in told.exports:
        words = ", ".join(word for _, kind in params for word in python_parameters(kind, names))
        lines.append(f"    # proved: {proved}")
        lines.append(f"    library.{name}.argtypes = [{words}]")
        lines.append(f"    library.{name}.restype = {python_type(result, names) if result else None}")
    lines += ["    for struct, (size, offsets) in LAYOUTS.items():"]
    lines += ["        if sizeof(struct) != size or [getattr(struct, field[0]).offset for field in struct._fields_] != offsets:"]
    lines += ['            raise ImportError(f"the layout of {struct.__name__} is not the library\'s")', ""]
    return "\n".join(lines)


def python_kinds(told):
    return kinds.python(told, NOTE)


def go_kinds(told):
    return kinds.go(told, NOTE)


def file_texts():
    """The text of each file."""
    told = Declared()
    return {file: globals()[maker](told) for file, maker in FILES.items()}
