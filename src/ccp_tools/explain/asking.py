"""Asks the program what it refuses in an input, without letting it run what it accepts.

The program reads a scenario whole before it runs the first case, and refuses the first thing that is wrong. So a bad
case behind the last one makes it stop there: a refusal of that case says that all before it is accepted."""
from __future__ import annotations

import re
from pathlib import Path
from typing import List, Optional, Tuple, Union

from .. import program as programs
from ..errors import NoProgram
from ..tables import LIMITS, MODES
from . import driven, folds
from .json_places import NotJson, Value, read

Path_ = Union[str, Path, None]
REFUSED = re.compile(r"ccp: input refused: (.*)\n", re.DOTALL)


def asked(program: Path_, mode: str, data: bytes) -> Tuple[Optional[str], str]:
    """What the program refuses in an input, as `range version`, or None; and what it printed."""
    ran = programs.run(mode, data, program=program, check=False)
    found = REFUSED.fullmatch(ran.errors)
    if ran.status == 0:
        return None, ran.output
    if ran.status == 3 and found:
        return found.group(1), ""
    said = ran.errors.strip() or "it printed nothing"
    raise NoProgram("%s %s ended with status %d: %s" % (program or "ccp", mode, ran.status, said), 2)


def refusal_of(program: Path_, mode: str, data: bytes) -> Tuple[Optional[str], str]:
    """What the program refuses in an input of a mode, or None; and what it printed, which is nothing of a scenario."""
    kind = MODES[mode].kind
    if kind in ("program", "fold"):
        return asked(program, mode, data)
    if kind == "drive":
        return refusal_of_driven(program, mode, data), ""
    if kind == "audit":
        separator = folds.separator_in(data)
        if separator is None or len(data) > LIMITS["audit_bytes"]:
            return asked(program, mode, data)
        ask = Scenario(program, mode, data[: separator[0]], b"---\n")
    else:
        ask = Scenario(program, mode, data, b"")
    return ask.refusal(), ""


def refusal_of_driven(program: Path_, mode: str, data: bytes) -> Optional[str]:
    """What the program refuses in an input of a mode of `drive`, or None: in its scenario, without running it, or in
    its frames, for which it runs."""
    separator = driven.separator_in(data)
    if separator is not None and separator[0] <= LIMITS["input_bytes"]:
        reason = Scenario(program, mode, data[: separator[0]], b"---\n").refusal()
        # it ends where the frames begin, as it has none
        if reason is not None and not reason.startswith("frame cut "):
            return reason
    return asked(program, mode, data)[0]


class Scenario:
    """The questions about a scenario in a mode. `ending` is what the input has behind the scenario."""

    def __init__(self, program: Path_, mode: str, data: bytes, ending: bytes) -> None:
        self.program, self.mode, self.data, self.ending = program, mode, data, ending
        self.text = data.decode("utf-8", "surrogateescape")
        self.cases = cases_in(self.text)

    def refusal(self) -> Optional[str]:
        """What the program refuses first, or None."""
        if self.cases is None or not self.cases.is_ or len(self.data) > LIMITS["input_bytes"]:
            # it is refused, or there is no case to run
            return self._asked(self.text)
        return self._of_cases() or self._of_total() or self._of_shared()

    def _asked(self, text: str) -> Optional[str]:
        data = encoded(text)
        line_end = b"\n" if self.ending and not data.endswith(b"\n") else b""
        return asked(self.program, self.mode, data + line_end + self.ending)[0]

    def _with_cases(self, items: str) -> str:
        assert self.cases is not None
        return self.text[: self.cases.start] + "[" + items + "]" + self.text[self.cases.end :].rstrip(" \t\r\n")

    def _source(self, first: int, end: int) -> str:
        """The text of the cases `first` to before `end`."""
        assert self.cases is not None
        items = self.cases.is_[first:end]
        return self.text[items[0].start : items[-1].end] if items else ""

    def _of_cases(self) -> Optional[str]:
        """A refusal up to the last case."""
        assert self.cases is not None
        count = len(self.cases.is_)
        most = MODES[self.mode].cases or LIMITS["flows"]
        question = self._with_cases(self._source(0, count) + ",0")
        if count != most and is_short(question):
            reason = self._asked(question)
            return None if reason == "wrong cases[%d]" % count else reason
        return self._of_cases_in_two()

    def _of_cases_in_two(self) -> Optional[str]:
        """The same where there is no room for one more case: all but the last one, and then the last one alone."""
        assert self.cases is not None
        last = len(self.cases.is_) - 1
        before = self._source(0, last)
        reason = self._asked(self._with_cases(before + ",0" if before else "0"))
        if reason != "wrong cases[%d]" % last:
            return reason
        question = self._with_cases(self._source(last, last + 1) + ",0")
        if not is_short(question):
            # a single case, and not two bytes to spare
            return self._asked(self.text)
        reason = self._asked(question)
        if reason == "wrong cases[1]":
            return None
        return reason and re.sub(r"\bcases\[0\]", "cases[%d]" % last, reason)

    def _of_total(self) -> Optional[str]:
        """A refusal of the sum of acknowledgements, once each case is accepted."""
        if MODES[self.mode].kind == "campaign":
            return None
        assert self.cases is not None
        return "totals" if total_acks(self.cases.is_) > LIMITS["acks_in_all"] else None

    def _of_shared(self) -> Optional[str]:
        """A refusal of the member `shared`, which comes last: without cases there is no round to run."""
        return self._asked(self._with_cases("")) if MODES[self.mode].kind == "shared" else None


def encoded(text: str) -> bytes:
    """The bytes of a text, as they were given."""
    return text.encode("utf-8", "surrogateescape")


def is_short(text: str) -> bool:
    """Whether a text isn't longer than an input may be."""
    return len(encoded(text)) <= LIMITS["input_bytes"]


def cases_in(text: str) -> Optional[Value]:
    """The list of a scenario's cases, or None where there is none."""
    try:
        whole = read(text)
    except (NotJson, RecursionError):
        return None
    found = whole.member("cases")
    return found if found is not None and found.kind == "array" else None


def total_acks(cases: List[Value]) -> int:
    """The sum of the cases' acknowledgements."""
    members = [case.member("acks") for case in cases]
    return sum(member.whole() or 0 for member in members if member is not None)
