"""The kinds and the statuses of the library as enumerations: their names, and the text of those in Python and Go. bindings/tests/declarations.py has the rest of what is drawn."""

# By the first word of a constant's name: the name of its type, and what a value of it says.
TYPES = {
    "SLOT": ("SlotKind", "how a claim fills a slot of its path"),
    "CHANNEL": ("ChannelType", "the type of a channel"),
    "CLOSE": ("Whose", "whose commitment closed a channel"),
    "DIRECTION": ("Direction", "whether the owner of a commitment offered an HTLC or received it"),
    "OUTPUT": ("OutputKind", "which output of a commitment it is"),
    "FORM": ("FormKind", "which form of BOLT 3 it is"),
    "FACT": ("FactKind", "what a path asks of the witness or the spend"),
    "ABOUT": ("About", "what a refusal is about"),
    "NOTE": ("NoteKind", "what a note on a script says"),
}
STATUS = "Status", "whether a call did what it is for, or why not"


def groups(told):
    """Each enumeration: its name and what a value of it says, both None where it has none, and of each constant its name there and in all declarations, its number and its text."""
    found = {}
    for file, constants in told.constants.items():
        for name, number, doc in constants:
            first, _, rest = name.partition("_")
            if file == "statuses":
                key, member = STATUS, name
            else:
                key, member = (TYPES[first], rest) if first in TYPES else ((None, None), name)
            found.setdefault(key, []).append((member, name, number, doc))
    return [(*key, constants) for key, constants in found.items()]


def named(told):
    return [it for it in groups(told) if it[0]]


def sentence(text):
    return text[0].upper() + text[1:] + "."


def shown(kind, number):
    return f"{number:#x}" if kind == STATUS[0] else str(number)


def python(told, note):
    lines = [f'"""The kinds and the statuses of the library. {note}"""', "from enum import IntEnum", ""]
    for kind, what, constants in named(told):
        lines += ["", f"class {kind}(IntEnum):", f'    """{sentence(what)}"""', ""]
        for member, _, number, doc in constants:
            lines += [f"    # {doc}", f"    {member} = {shown(kind, number)}"]
        lines.append("")
    lines += ["", "# What each status says.", "SENTENCES = {"]
    lines += [f"    Status.{name}: {python_text(doc)}," for name, _, doc in told.statuses()]
    return "\n".join([*lines, "}", ""])


def python_text(text):
    return '"' + text.replace("\\", "\\\\").replace('"', '\\"') + '"'


def go_name(name):
    """FORM_TO_LOCAL is FormToLocal."""
    return "".join(part.capitalize() for part in name.split("_"))


def go(told, note):
    lines = ["package enforce", "", f"// {note}", "", "/*", "#include <enforce.h>", "*/", 'import "C"', ""]
    for kind, what, constants in named(told):
        lines += [f"// {kind} says {what}.", f"type {kind} uint32", ""]
        for _, name, _, doc in constants:
            # a status is an error, and 0 is none
            shown_name = ("Err" if kind == STATUS[0] and name != "DONE" else "") + go_name(name)
            lines += [f"// {shown_name}: {doc}", f"const {shown_name} {kind} = C.ENFORCE_{name}", ""]
    return "\n".join(lines)
