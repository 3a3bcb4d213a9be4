"""Reads a JSON text as the reader of `ccp` does, and keeps the place of each value.

It refuses what that reader refuses: more than 127 open arrays and objects, a number past the range of a 64-bit float,
half of a surrogate pair, a byte order mark. A byte that isn't UTF-8 is given as Python's surrogateescape has it."""
from __future__ import annotations

import re
from typing import Any, List, Optional, Sequence, Tuple

DEPTH = 127
NUMBER = re.compile(r"-?(0|[1-9][0-9]*)(\.[0-9]+)?([eE][+-]?[0-9]+)?")
BLANKS = re.compile(r"[ \t\r\n]*")
PLAIN = re.compile(r'[^"\\\x00-\x1f\udc80-\udcff]+')
WORD = re.compile(r"\w*")
ESCAPES = {'"': '"', "\\": "\\", "/": "/", "b": "\b", "f": "\f", "n": "\n", "r": "\r", "t": "\t"}
WORDS = {"true": True, "false": False, "null": None}
KINDS = {"object": "an object", "array": "a list", "text": "a text", "number": "a number"}


class NotJson(Exception):
    """Where a text stops being JSON, and why."""

    def __init__(self, start: int, why: str) -> None:
        super().__init__(why)
        self.start = start
        self.why = why


class Value:
    """A value of a JSON text, from the character `start` to before `end`. Its kind is object, array, text, number,
    word.

    `is_` has the members of an object as pairs (key, value) in their order, the items of an array, the characters of a
    text, the digits of a number as written, or True, False or None. `starts` says of a text where each of its
    characters begins, and where the last one ends."""

    def __init__(self, kind: str, is_: Any, start: int, end: int, starts: Sequence[int] = ()) -> None:
        self.kind = kind
        self.is_ = is_
        self.start = start
        self.end = end
        self.starts = starts

    def members(self, name: str) -> List[Tuple[Value, Value]]:
        """The keys and values of this name, in their order: the last one counts."""
        return [pair for pair in self.is_ if pair[0].is_ == name] if self.kind == "object" else []

    def member(self, name: str) -> Optional[Value]:
        """The value of a member, or None."""
        found = self.members(name)
        return found[-1][1] if found else None

    def names(self) -> List[str]:
        """The names of an object's members in the order of their first places."""
        return list(dict.fromkeys(key.is_ for key, _ in self.is_))

    def whole(self) -> Optional[int]:
        """The whole number that this value is to `ccp`, else None."""
        if self.kind != "number" or not re.fullmatch(r"0|-?[1-9][0-9]*", self.is_):
            return None
        number = int(self.is_) if len(self.is_) <= 20 else 2**64
        return number if -(2**63) <= number < 2**64 else None

    def kind_name(self) -> str:
        """The kind as a sentence names it."""
        if self.kind == "word":
            return "null" if self.is_ is None else "true" if self.is_ else "false"
        return KINDS[self.kind]


class Reader:
    """A walk over a JSON text."""

    def __init__(self, text: str) -> None:
        self.text = text
        self.at = 0

    def next(self) -> str:
        """The next character that is no blank, or the empty text at the end."""
        found = BLANKS.match(self.text, self.at)
        assert found
        self.at = found.end()
        return self.text[self.at : self.at + 1]

    def whole_text(self) -> Value:
        """The value of the whole text, with nothing after it."""
        if self.text.startswith("\ufeff"):
            raise NotJson(0, "a byte order mark is no JSON")
        if not self.next():
            raise NotJson(self.at, "the text is empty")
        value = self.value(0)
        if self.next():
            raise NotJson(self.at, "the value ends before this")
        return value

    def value(self, depth: int) -> Value:
        """A value of any kind; `depth` is how many arrays and objects are open."""
        first = self.next()
        if not first:
            raise NotJson(self.at, "the text ends where a value is expected")
        if first in "{[":
            if depth == DEPTH:
                raise NotJson(self.at, "more than 127 arrays and objects are open")
            return self.object(depth + 1) if first == "{" else self.array(depth + 1)
        if first == '"':
            return self.string()
        if first in "-0123456789":
            return self.number()
        return self.word()

    def object(self, depth: int) -> Value:
        """An object, whose `{` is here."""
        start = self.at
        members: List[Tuple[Value, Value]] = []
        self.at += 1
        if self.next() == "}":
            self.at += 1
            return Value("object", members, start, self.at)
        while True:
            if self.next() != '"':
                raise NotJson(self.at, "a member's name in straight double quotes is expected here")
            key = self.string()
            if self.next() != ":":
                raise NotJson(self.at, "a `:` is expected after a member's name")
            self.at += 1
            members.append((key, self.value(depth)))
            if self.ends("}"):
                return Value("object", members, start, self.at)

    def array(self, depth: int) -> Value:
        """An array, whose `[` is here."""
        start = self.at
        items: List[Value] = []
        self.at += 1
        if self.next() == "]":
            self.at += 1
            return Value("array", items, start, self.at)
        while True:
            items.append(self.value(depth))
            if self.ends("]"):
                return Value("array", items, start, self.at)

    def ends(self, closing: str) -> bool:
        """Whether the list or object ends here; else a comma is taken."""
        found = self.next()
        if not found:
            raise NotJson(self.at, "the text ends before a `%s`" % closing)
        if found not in (",", closing):
            raise NotJson(self.at, "a `,` or `%s` is expected here" % closing)
        self.at += 1
        if found == "," and self.next() == closing:
            raise NotJson(self.at, "nothing follows the comma before this `%s`" % closing)
        return found == closing

    def string(self) -> Value:
        """A text, whose quote is here."""
        start = self.at
        made: List[str] = []
        starts: List[int] = []
        self.at += 1
        while True:
            plain = PLAIN.match(self.text, self.at)
            if plain:
                made.append(plain.group())
                starts.extend(range(self.at, plain.end()))
                self.at = plain.end()
            found = self.text[self.at : self.at + 1]
            if found == '"':
                self.at += 1
                return Value("text", "".join(made), start, self.at, [*starts, self.at - 1])
            if not found:
                raise NotJson(start, "this text has no closing quote")
            if "\udc80" <= found <= "\udcff":
                raise NotJson(self.at, "the byte 0x%02X here isn't UTF-8" % (ord(found) - 0xDC00))
            if found != "\\":
                raise NotJson(self.at, "a text holds no line end, tab or other control character: write \\n, \\t")
            starts.append(self.at)
            made.append(self.escape())

    def escape(self) -> str:
        """The character of an escape, whose backslash is here."""
        start = self.at
        letter = self.text[start + 1 : start + 2]
        self.at += 2
        if letter in ESCAPES and letter:
            return ESCAPES[letter]
        if letter != "u":
            raise NotJson(start, "`\\%s` is no escape of JSON" % letter)
        unit = self.unit(start)
        if 0xDC00 <= unit < 0xE000:
            raise NotJson(start, "this is the second half of a surrogate pair without the first")
        if not 0xD800 <= unit < 0xDC00:
            return chr(unit)
        if self.text[self.at : self.at + 2] != "\\u":
            raise NotJson(start, "this is half of a surrogate pair")
        self.at += 2
        second = self.unit(start)
        if not 0xDC00 <= second < 0xE000:
            raise NotJson(start, "this is half of a surrogate pair")
        return chr(0x10000 + (unit - 0xD800) * 0x400 + second - 0xDC00)

    def unit(self, start: int) -> int:
        """The four hexadecimal digits of a `\\u` that begins at `start`."""
        digits = self.text[self.at : self.at + 4]
        if not re.fullmatch("[0-9a-fA-F]{4}", digits):
            raise NotJson(start, "`\\u` has four hexadecimal digits after it")
        self.at += 4
        return int(digits, 16)

    def number(self) -> Value:
        """A number."""
        start = self.at
        found = NUMBER.match(self.text, start)
        after = self.text[found.end() : found.end() + 1] if found else ""
        if not found or after and after in "0123456789.eE":
            raise NotJson(start, "this is no number of JSON")
        if float(found.group()) in (float("inf"), float("-inf")):
            raise NotJson(start, "this number is too large")
        self.at = found.end()
        return Value("number", found.group(), start, self.at)

    def word(self) -> Value:
        """`true`, `false` or `null`."""
        found = WORD.match(self.text, self.at)
        assert found
        if found.group() not in WORDS:
            raise NotJson(self.at, "this is no value of JSON")
        start, self.at = self.at, found.end()
        return Value("word", WORDS[found.group()], start, self.at)


def read(text: str) -> Value:
    """The value of a JSON text. It raises NotJson."""
    return Reader(text).whole_text()
