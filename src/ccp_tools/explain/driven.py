"""Inputs of the modes of `drive`: a scenario, a line `---`, and frames; and what is wrong with a frame."""
from __future__ import annotations

import re
from typing import Dict, Iterator, List, Optional, Tuple

from ..tables import LIMITS
from . import folds
from .findings import Finding

HEAD = 16
# how many bytes of a frame are shown
SHOWN = 24
# of each field that a bad byte may be in, what is allowed there
FIELDS: Dict[str, str] = {
    "Kind": "A frame's kind is from 1 to 8, and the reason of a Refused from 1 to %d." % LIMITS["reason"],
    "Version": "A frame's version is 1 or 2.",
    "Count": "A list is longer than its kind and version allow, or the kind has no such list and the count isn't 0.",
    "Length": "The length follows from kind, version and counts, and this is another one.",
    "Flag": "A flag is 0 or 1: whether a register is volatile, and the last primitive of an Ack.",
    "Op": "An operation of an Install is from 0 to %d." % LIMITS["operation"],
    "Class": "A value is written to a control variable, which is class 3, or to `Cwnd` or `Rate`, which are class 4; an"
    " instruction's registers have the classes 0 to 6.",
    "Index": "A value's index is that of a control variable below %d, or 4 for `Cwnd` and 5 for `Rate`; a register's"
    " number is one that its class has." % LIMITS["controls"],
    "FaultKind": "A fault's kind is 0, 1 or 2.",
}
PAGE = "docs/frames.md has the bytes of each kind, and docs/drive.md who speaks when."


def separator_in(data: bytes) -> Optional[Tuple[int, int]]:
    """Where the line `---` begins, and where the frames do; or None. It counts with its line end alone."""
    found = folds.separator_in(data)
    return found if found is not None and data[found[1] - 1 : found[1]] == b"\n" else None


def looks_driven(data: bytes) -> bool:
    """Whether what follows the line `---` begins as a frame does."""
    found = separator_in(data)
    return found is not None and 1 <= (data[found[1] : found[1] + 1] or b"\0")[0] <= 8


def frames_in(data: bytes, at: int, end: int) -> Iterator[int]:
    """Where each frame begins that is whole before `end`, and then where the next one does."""
    yield at
    while at + HEAD <= end:
        at += max(HEAD, int.from_bytes(data[at + 12 : at + HEAD], "little"))
        if at > end:
            return
        yield at


def frame_refusal(data: bytes, reason: str) -> Finding:
    """The finding of a frame that is refused, as `frame Kind at 335` or `frame cut at 335`; its places count bytes."""
    field, at = reason.split()[1], int(reason.split()[3])
    separated = separator_in(data)
    begins = list(frames_in(data, separated[1] if separated else 0, at))
    begin, number = begins[-1], len(begins) - 1
    if field == "cut":
        hints = cut_hints(data, begin)
        return Finding("refused", begin, begin, reason, hints, shown(data, begin, min(len(data), begin + SHOWN), begin))
    where = "This is byte %d of frame %d, which begins at byte %d of the input." % (at - begin, number, begin)
    return Finding("refused", at, at + 1, reason, [FIELDS[field], where, PAGE], shown(data, begin, at + 1, at))


def cut_hints(data: bytes, begin: int) -> List[str]:
    """Why the input ends too early."""
    rest = data[begin:]
    if not rest:
        return ["The input ends while a flow waits for a frame: the agent has to answer until the last flow is over."]
    if len(rest) < HEAD:
        return ["The last frame has %d of the %d bytes of its head." % (len(rest), HEAD)]
    return ["The last frame has %d of its %d bytes." % (len(rest), int.from_bytes(rest[12:HEAD], "little"))]


def shown(data: bytes, begin: int, end: int, at: int) -> List[str]:
    """The bytes of a frame up to one, as hexadecimal digits, with a caret below that one."""
    first = max(begin, end - SHOWN)
    margin = "%6d | " % first + (".. " if first > begin else "")
    bytes_ = re.sub("(..)", r"\1 ", data[first:end].hex()).rstrip()
    caret = "^^" if at < end else "^"
    return [margin + bytes_, " " * 7 + "| " + " " * (len(margin) - 9 + 3 * (at - first)) + caret]
