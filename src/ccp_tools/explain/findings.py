"""What is found in a text, and how it is printed: its place, the line with a caret, sentences and hints."""
from __future__ import annotations

import difflib
import re
from dataclasses import dataclass, field
from typing import Iterable, List, Optional, Sequence, Tuple

from ..files import what_is

WIDTH = 100


@dataclass
class Finding:
    """Something that is found at the characters `start` to before `end` of a text. Its level is `refused`, `fault` or
    `warning`. `within` are lines to show in place of the text's own, as those of a program inside a scenario."""

    level: str
    start: int
    end: int
    what: str
    hints: List[str] = field(default_factory=list)
    within: List[str] = field(default_factory=list)


class Text:
    """A text with the numbers of its lines. Lines and columns count from 1, and columns count characters."""

    def __init__(self, name: str, text: str) -> None:
        self.name = name
        self.text = text
        self.begins = [0] + [found.end() for found in re.finditer("\n", text)]

    def place(self, start: int) -> Tuple[int, int]:
        """The line and the column of a character."""
        first, last = 0, len(self.begins)
        while last - first > 1:
            middle = (first + last) // 2
            if self.begins[middle] <= start:
                first = middle
            else:
                last = middle
        return first + 1, start - self.begins[first] + 1

    def line(self, number: int) -> str:
        """A line without its end."""
        end = self.begins[number] - 1 if number < len(self.begins) else len(self.text)
        return self.text[self.begins[number - 1] : end].rstrip("\r")

    def start_of(self, line: int, column: int) -> int:
        """The character at a line and a column."""
        return self.begins[min(line, len(self.begins)) - 1] + column - 1


def pointed(number: int, line: str, column: int, length: int) -> List[str]:
    """A line with its number, and a caret below; a long line is cut around the column."""
    first = 0
    if len(line) > WIDTH:
        first = max(0, min(column - 1 - WIDTH // 3, len(line) - WIDTH))
    shown = "".join(mark if mark.isprintable() or mark == "\t" else "?" for mark in line[first : first + WIDTH])
    before = re.sub(r"[^\t]", " ", shown[: column - 1 - first])
    carets = "^" * max(1, min(length, len(shown) - len(before)))
    left, right = ".. " if first else "", " .." if first + WIDTH < len(line) else ""
    margin = "%6d | " % number
    return [margin + left + shown + right, " " * (len(margin) - 2) + "| " + " " * len(left) + before + carets]


def printed(text: Text, finding: Finding) -> List[str]:
    """The lines that show a finding."""
    line, column = text.place(finding.start)
    lines = ["%s:%d:%d: %s: %s" % (text.name, line, column, finding.level, finding.what)]
    lines += finding.within or pointed(line, text.line(line), column, finding.end - finding.start)
    return lines + ["  " + hint for hint in finding.hints]


# ---- words


def nearest(word: str, known: Iterable[str]) -> Optional[str]:
    """The known word that is most like this one, or None."""
    by_lower = {name.lower(): name for name in sorted(known, reverse=True)}
    low = word.lower()
    if low in by_lower:
        return by_lower[low]
    joined = {re.sub("[^a-z0-9]", "", name): name for name in by_lower}
    bare = re.sub("[^a-z0-9]", "", low)
    if bare and bare in joined:
        return by_lower[joined[bare]]
    found = difflib.get_close_matches(low, by_lower, 1, 0.7)
    return by_lower[found[0]] if found else None


def did_you_mean(word: str, known: Iterable[str]) -> List[str]:
    """A hint as a list, empty where no known word is near."""
    found = nearest(word, known)
    return ["Did you mean `%s`?" % found] if found else []


def cut(text: str, length: int = 60) -> str:
    """A text in one line, for a sentence."""
    shown = "".join(mark if mark.isprintable() else "?" for mark in text)
    return shown if len(shown) <= length else shown[:length] + ".."


def listed(words: Sequence[str], last: str = "and") -> str:
    """Words as a sentence lists them, each in backquotes."""
    shown = ["`%s`" % cut(word) for word in words]
    return shown[0] if len(shown) == 1 else "%s %s %s" % (", ".join(shown[:-1]), last, shown[-1])


# ---- files that aren't what is expected


def hints_of_file(data: bytes) -> List[str]:
    """What a file is that is no text at all, and what to do; empty where it may be a text."""
    kind = what_is(data)
    if kind is None and b"\0" in data[:4096]:
        kind = "binary data"
    if kind is None:
        return []
    if "UTF-16" in kind or is_utf16(data):
        return ["This is UTF-16: save it as UTF-8."]
    if kind == "a program":
        kind = "an executable"
    return ["This is no text: the file is %s." % kind]


def is_utf16(data: bytes) -> bool:
    """Whether every second byte of the beginning is 0, as in UTF-16 without a byte order mark."""
    head = data[: min(len(data), 200) // 2 * 2]
    return len(head) >= 8 and (not any(head[::2]) or not any(head[1::2])) and any(head)


def looks_like_trace(text: str) -> bool:
    """Whether a text has whole numbers alone, one a line."""
    head = text[:2000].lstrip("\ufeff")
    lines = [line.strip(" \t\r") for line in head.split("\n")]
    if len(text) > 2000:
        lines.pop()
    return any(lines) and all(line.isdigit() and line.isascii() for line in lines if line)


def looks_like_path(text: str) -> bool:
    """Whether a text is the path of a file rather than what a file holds."""
    line = text.strip()
    if not 0 < len(line) < 300 or "\n" in line or "(" in line:
        return False
    ending = re.search(r"[.](portus|ccp|trace|txt|json|down|up|csv|pps|log)$", line)
    return "/" in line or ending is not None
