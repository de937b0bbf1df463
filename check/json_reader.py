"""One value of JSON (RFC 8259), as docs/FORMATS.md says that a line of a journal is read: as serde_json reads it. A whole number
below 2^64 is an int, and so is one from -1 down to -2^63; any other number is a float.
"""
import math
import re

SPACE = re.compile(r"[ \t\n\r]*")
NUMBER = re.compile(r"(-?)(0|[1-9][0-9]*)(\.[0-9]+)?([eE][+-]?[0-9]+)?")
UNIT = re.compile(r"\\u([0-9a-fA-F]{4})")
LITERALS = {"null": None, "true": True, "false": False}
ESCAPED = {'"': '"', "\\": "\\", "/": "/", "b": "\b", "f": "\f", "n": "\n", "r": "\r", "t": "\t"}

# Arrays and objects nest so deep.
DEEPEST = 127


class NotJson(Exception):
    """A text is no value."""


def json_of(line):
    """The value that the bytes are as a whole."""
    try:
        reader = Reader(line.decode("utf-8"))
    except UnicodeDecodeError:
        raise NotJson from None
    value = reader.value(DEEPEST)
    reader.pass_spaces()
    if reader.at < len(reader.text):
        raise NotJson
    return value


class Reader:
    def __init__(self, text):
        self.text, self.at = text, 0

    def pass_spaces(self):
        self.at = SPACE.match(self.text, self.at).end()

    def take(self, word):
        """Whether the word comes next, after spaces; then it is passed over."""
        self.pass_spaces()
        found = self.text.startswith(word, self.at)
        self.at += len(word) if found else 0
        return found

    def need(self, word):
        if not self.take(word):
            raise NotJson

    def value(self, depth):
        """One value, with so many levels of arrays and objects at most."""
        for opening, read in (("[", self.array), ("{", self.object)):
            if self.take(opening):
                if depth == 0:
                    raise NotJson
                return read(depth - 1)
        if self.take('"'):
            return self.string()
        for word, value in LITERALS.items():
            if self.take(word):
                return value
        return self.number()

    def array(self, depth):
        items = []
        while not self.take("]"):
            if items:
                self.need(",")
            items.append(self.value(depth))
        return items

    def object(self, depth):
        # Of a key that stands twice the last value stays.
        members = {}
        while not self.take("}"):
            if members:
                self.need(",")
            self.need('"')
            key = self.string()
            self.need(":")
            members[key] = self.value(depth)
        return members

    def number(self):
        found = NUMBER.match(self.text, self.at)
        if not found:
            raise NotJson
        self.at = found.end()
        sign, digits, fraction, exponent = found.groups()
        # Where there are more digits, the number is 2^64 or more.
        if fraction is None and exponent is None and len(digits) <= 20:
            number = int(digits)
            if not sign and number < 2**64:
                return number
            if sign and 1 <= number <= 2**63:
                return -number
        nearest = float(found[0])
        if math.isinf(nearest):
            raise NotJson
        return nearest

    def string(self):
        """The rest of a string, whose opening quote was passed over."""
        content = []
        while True:
            letter = self.text[self.at : self.at + 1]
            if letter < " ":  # a control character, or none
                raise NotJson
            if letter == "\\":
                content.append(self.escape())
                continue
            self.at += 1
            if letter == '"':
                return "".join(content)
            content.append(letter)

    def escape(self):
        if self.text[self.at + 1 : self.at + 2] != "u":
            letter = self.text[self.at + 1 : self.at + 2]
            if letter not in ESCAPED:
                raise NotJson
            self.at += 2
            return ESCAPED[letter]
        unit = self.unit()
        if 0xD800 <= unit < 0xDC00:
            low = self.unit()
            if not 0xDC00 <= low < 0xE000:
                raise NotJson
            return chr(0x10000 + (unit - 0xD800) * 0x400 + (low - 0xDC00))
        if 0xDC00 <= unit < 0xE000:
            raise NotJson
        return chr(unit)

    def unit(self):
        """The code unit of an escape of four hexadecimal digits, which has to come next."""
        found = UNIT.match(self.text, self.at)
        if not found:
            raise NotJson
        self.at = found.end()
        return int(found[1], 16)
