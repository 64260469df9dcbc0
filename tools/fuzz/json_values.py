"""JSON as serde_json reads it: a value, or None if the bytes are none.

Integers from 0 to 2^64 - 1 are Python's. Every other number is a float, so that an int is just what the formats take. An object keeps the last of two
members of one name. Nesting ends at 127 levels.
"""

import re

DEEPEST = 127
NUMBER = re.compile(r"-?(0|[1-9][0-9]*)(\.[0-9]+)?([eE][+-]?[0-9]+)?")
PLAIN = re.compile(r'[^"\\\x00-\x1f]*')
SPACE = re.compile(r"[ \t\n\r]*")
ESCAPES = {'"': '"', "\\": "\\", "/": "/", "b": "\b", "f": "\f", "n": "\n", "r": "\r", "t": "\t"}
WORDS = {"true": True, "false": False, "null": None}


class NotJson(Exception):
    """The text is no JSON."""


class Reader:
    """Reads one value of a text."""

    def __init__(self, text):
        self.text = text
        self.at = 0

    def skip(self):
        self.at = SPACE.match(self.text, self.at).end()

    def peek(self):
        return self.text[self.at : self.at + 1]

    def wants(self, word):
        if not self.text.startswith(word, self.at):
            raise NotJson
        self.at += len(word)

    def whole(self):
        self.skip()
        value = self.value(0)
        self.skip()
        if self.at != len(self.text):
            raise NotJson
        return value

    def value(self, depth):
        first = self.peek()
        if first == "{":
            return self.object(depth + 1)
        if first == "[":
            return self.array(depth + 1)
        if first == '"':
            return self.string()
        for word, value in WORDS.items():
            if self.text.startswith(word, self.at):
                self.at += len(word)
                return value
        return self.number()

    def number(self):
        found = NUMBER.match(self.text, self.at)
        if not found:
            raise NotJson
        self.at = found.end()
        if not found[2] and not found[3] and not found[0].startswith("-") and int(found[0]) < 2**64:
            return int(found[0])
        value = float(found[0])
        if value in (float("inf"), float("-inf")):
            raise NotJson
        return value

    def string(self):
        self.wants('"')
        pieces = []
        while True:
            plain = PLAIN.match(self.text, self.at)
            pieces.append(plain[0])
            self.at = plain.end()
            if self.peek() == '"':
                self.at += 1
                return "".join(pieces)
            self.wants("\\")
            pieces.append(self.escaped())

    def escaped(self):
        sign = self.peek()
        self.at += 1
        if sign in ESCAPES and sign:
            return ESCAPES[sign]
        if sign != "u":
            raise NotJson
        unit = self.unit()
        if 0xDC00 <= unit < 0xE000:
            raise NotJson
        if 0xD800 <= unit < 0xDC00:
            self.wants("\\u")
            low = self.unit()
            if not 0xDC00 <= low < 0xE000:
                raise NotJson
            unit = 0x10000 + ((unit - 0xD800) << 10) + (low - 0xDC00)
        return chr(unit)

    def unit(self):
        digits = self.text[self.at : self.at + 4]
        if not re.fullmatch("[0-9a-fA-F]{4}", digits):
            raise NotJson
        self.at += 4
        return int(digits, 16)

    def array(self, depth):
        self.enter("[", depth)
        values = []
        if self.peek() == "]":
            self.at += 1
            return values
        while True:
            self.skip()
            values.append(self.value(depth))
            if not self.goes_on("]"):
                return values

    def object(self, depth):
        self.enter("{", depth)
        members = {}
        if self.peek() == "}":
            self.at += 1
            return members
        while True:
            self.skip()
            name = self.string()
            self.skip()
            self.wants(":")
            self.skip()
            members[name] = self.value(depth)
            if not self.goes_on("}"):
                return members

    def enter(self, sign, depth):
        if depth > DEEPEST:
            raise NotJson
        self.wants(sign)
        self.skip()

    def goes_on(self, end):
        self.skip()
        if self.peek() == end:
            self.at += 1
            return False
        self.wants(",")
        return True


def value_of(line):
    """Returns the value that the bytes of a line are, or raises NotJson."""
    try:
        text = line.decode()
    except UnicodeDecodeError:
        raise NotJson from None
    return Reader(text).whole()
