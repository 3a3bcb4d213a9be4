"""What can go wrong while an agent drives flows. Each error is a CcpError: one line of text."""
from __future__ import annotations

import signal

from ..errors import CcpError, Failed

# the status of a program that doesn't know the word
WORDS_REFUSED = 2


class BadAnswer(CcpError):
    """An answer that can't be sent: a name that the scenario doesn't have, or a value that isn't from 0 to 2^64-1."""


class NoField(CcpError, KeyError):
    """A report doesn't have the field that is asked for: the program that made it declares others."""

    # that of KeyError shows its text as Python writes a string
    __str__ = Exception.__str__


class AgentFailed(CcpError):
    """The code of an agent's file raised something, `SystemExit` too: the text has its file, its line and what."""


class NotAsked(CcpError):
    """An answer while no flow waits for one."""


class Silent(CcpError):
    """The program has written nothing for the session's `timeout`."""


class FrameRefused(CcpError):
    """The program refused a frame, and its flow still waits. `reason` and `index` are those of the Refused, `flow` is
    the flow of the frame; the text has the cause in words."""

    def __init__(self, text: str, reason: int, index: int, flow: int) -> None:
        super().__init__("%s (reason %d, index %d)" % (text, reason, index))
        self.reason = reason
        self.index = index
        self.flow = flow


class Ended(Failed):
    """The program ended before the run was over, or with another status than 0. `status` is its status, and `line` its
    line on standard error, as `ccp: input refused: frame cut at 335`; `when` says what the session was at."""

    def __init__(self, status: int, line: str, when: str) -> None:
        super().__init__(status, line)
        said = self.line or how_ended(status)
        said += " (it has no mode drive)" if status == WORDS_REFUSED else ""
        self.args = ("%s: %s" % (when, said) if when else said,)


def how_ended(status: int) -> str:
    """How a program without a line on standard error ended."""
    if status >= 0:
        return "ccp drive ended with status %d" % status
    try:
        name = signal.Signals(-status).name
    except ValueError:
        name = "signal %d" % -status
    return "ccp drive was stopped by %s" % name
