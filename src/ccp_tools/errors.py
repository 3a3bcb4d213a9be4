"""The errors of this package. Each is one line of text for the user, and knows the exit status that it ends with."""
from __future__ import annotations

import re

# the most bytes of a name or of a user's text that a message shows
MOST_SHOWN = 200
# what would end a line of a terminal or change how it shows the rest
CONTROL = re.compile("[\x00-\x1f\x7f-\x9f\u2028\u2029]")


class CcpError(Exception):
    """What is wrong, in one line for the user. `status` is the exit status of a command that ends with it."""

    status = 1

    def __init__(self, text: str, status: int | None = None) -> None:
        super().__init__(text)
        if status is not None:
            self.status = status


class UsageError(CcpError):
    """An argument of a command is wrong."""

    status = 2


class BadText(CcpError):
    """A text that `ccp` doesn't print. `line` is the number of its line from 1, or None."""

    def __init__(self, what: str, line: int | None = None) -> None:
        super().__init__("line %d: %s" % (line, what) if line else what)
        self.what = what
        self.line = line


class NoProgram(CcpError):
    """There is no program to run, or it doesn't answer as it should."""


class Failed(CcpError):
    """The program ended with another status than 0: `status` is that, and 128 more than a signal that stopped it.
    `line` is its line on standard error."""

    def __init__(self, status: int, line: str) -> None:
        ended = status if status >= 0 else 128 - status
        line = line.strip()
        super().__init__(line or "ccp ended with status %d" % ended, ended)
        self.line = line


def cut(text: str, most: int = MOST_SHOWN) -> str:
    """A name or a text of the user as a message shows it: whole, or in at most `most` bytes its beginning and end."""
    data = text.encode("utf-8", "surrogatepass")
    if len(data) <= most:
        return text
    half = (most - 4) // 2
    return data[:half].decode("utf-8", "ignore") + " .. " + data[-half:].decode("utf-8", "ignore")


def one_line(text: str) -> str:
    """A message as one line of a terminal: line ends and tabs become blanks, other control characters are escaped, and
    words are cut."""
    flat = CONTROL.sub(lambda found: "\\x%02x" % ord(found[0]), re.sub("[\t\n\r]", " ", text))
    return re.sub(r"\S{%d,}" % (MOST_SHOWN // 4), lambda found: cut(found[0]), flat)
