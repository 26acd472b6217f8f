"""JSON as a plan file has it: RFC 8259, read as `serde_json` reads it (docs/FORMATS.md, "The plan file").

A value is None, a bool, an int (a whole number), a float (any other number), a str, a list or a dict. Of a
repeated name the last member stands. A number is whole where it has no point and no exponent, isn't `-0`, and lies
within 64 bits, signed.
"""
import re

MOST_LEVELS = 127
NUMBER = re.compile(r"-?(0|[1-9][0-9]*)(\.[0-9]+)?([eE][+-]?[0-9]+)?")
WHOLE = re.compile(r"-?(0|[1-9][0-9]*)")
PLAIN = re.compile(r'[^"\\\x00-\x1f]*')
ESCAPES = {'"': '"', "\\": "\\", "/": "/", "b": "\b", "f": "\f", "n": "\n", "r": "\r", "t": "\t"}
PRINTED = {'"': '\\"', "\\": "\\\\", "\b": "\\b", "\f": "\\f", "\n": "\\n", "\r": "\\r", "\t": "\\t"}
INT_MIN, INT_MAX = -2**63, 2**63 - 1


class NotJson(Exception):
    """The bytes aren't read as JSON."""


def number_of(text: str):
    """The int that a number's text is, where it is whole, and else a float."""
    if WHOLE.fullmatch(text) and text != "-0" and INT_MIN <= int(text) <= INT_MAX:
        return int(text)
    number = float(text)
    if number in (float("inf"), float("-inf")):
        raise NotJson("a number that no float holds")
    return number


class Reader:
    """A place in a text, from which values are read."""

    def __init__(self, text: str):
        self.text = text
        self.at = 0

    def blanks(self) -> None:
        while self.at < len(self.text) and self.text[self.at] in " \t\n\r":
            self.at += 1

    def next_is(self, word: str) -> bool:
        """Steps over the word, where it comes next."""
        if self.text.startswith(word, self.at):
            self.at += len(word)
            return True
        return False

    def must(self, word: str) -> None:
        if not self.next_is(word):
            raise NotJson(f"no {word!r} at {self.at}")

    def value(self, levels: int):
        self.blanks()
        for word, value in (("null", None), ("true", True), ("false", False)):
            if self.next_is(word):
                return value
        if self.next_is('"'):
            return self.string()
        if self.next_is("["):
            return self.items(levels)
        if self.next_is("{"):
            return self.members(levels)
        found = NUMBER.match(self.text, self.at)
        if not found:
            raise NotJson(f"no value at {self.at}")
        self.at = found.end()
        return number_of(found.group())

    def items(self, levels: int) -> list:
        if levels == 0:
            raise NotJson("too many levels")
        items = []
        self.blanks()
        if self.next_is("]"):
            return items
        while True:
            items.append(self.value(levels - 1))
            self.blanks()
            if self.next_is("]"):
                return items
            self.must(",")

    def members(self, levels: int) -> dict:
        if levels == 0:
            raise NotJson("too many levels")
        members = {}
        self.blanks()
        if self.next_is("}"):
            return members
        while True:
            self.blanks()
            self.must('"')
            name = self.string()
            self.blanks()
            self.must(":")
            members[name] = self.value(levels - 1)
            self.blanks()
            if self.next_is("}"):
                return members
            self.must(",")

    def unit(self) -> int:
        """The four hexadecimal digits behind `\\u`."""
        digits = self.text[self.at:self.at + 4]
        if not re.fullmatch("[0-9a-fA-F]{4}", digits):
            raise NotJson("no four digits")
        self.at += 4
        return int(digits, 16)

    def string(self) -> str:
        parts = []
        while True:
            plain = PLAIN.match(self.text, self.at)
            self.at = plain.end()
            parts.append(plain.group())
            if self.next_is('"'):
                return "".join(parts)
            self.must("\\")
            parts.append(self.escape())

    def escape(self) -> str:
        letter = self.text[self.at:self.at + 1]
        self.at += 1
        if letter in ESCAPES and letter:
            return ESCAPES[letter]
        if letter != "u":
            raise NotJson("no escape")
        unit = self.unit()
        if 0xD800 <= unit < 0xDC00:
            self.must("\\u")
            low = self.unit()
            if not 0xDC00 <= low < 0xE000:
                raise NotJson("half a pair")
            return chr(0x10000 + (unit - 0xD800) * 0x400 + low - 0xDC00)
        if 0xDC00 <= unit < 0xE000:
            raise NotJson("half a pair")
        return chr(unit)


def read(data: bytes):
    """The value that bytes are."""
    try:
        reader = Reader(data.decode("utf-8"))
    except UnicodeDecodeError as error:
        raise NotJson("no UTF-8") from error
    value = reader.value(MOST_LEVELS)
    reader.blanks()
    if reader.at != len(reader.text):
        raise NotJson("more than a value")
    return value


def printed(value) -> str:
    """A cell as compact JSON, a text by the shortest escapes."""
    if value is None:
        return "null"
    if isinstance(value, bool):
        return "true" if value else "false"
    if isinstance(value, int):
        return str(value)
    return '"' + "".join(PRINTED.get(c, c if c >= " " else f"\\u{ord(c):04x}") for c in value) + '"'
