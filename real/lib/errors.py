"""What ends a tool of this folder: an input that is refused, or something that it needs and does not find. Tested, not
proved.
"""


class Refused(Exception):
    """An input that is refused, by its name and the numbers that it carries; and a note in words, if there is one."""

    def __init__(self, name: str, note: str | None = None) -> None:
        super().__init__(name)
        self.note = note


class NotRun(Exception):
    """Something that is needed is missing here."""


def bytes_of(text: str) -> bytes:
    """The bytes of a text in hexadecimal, without blanks."""
    try:
        if not text.isascii() or any(it.isspace() for it in text):
            raise ValueError
        return bytes.fromhex(text)
    except ValueError:
        raise Refused("BadHex") from None
