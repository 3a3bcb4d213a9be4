"""The events of flows and the answers of agents as objects, and the frames that stand for them (docs/frames.md)."""
from __future__ import annotations

import math
import operator
import struct
import sys
from dataclasses import dataclass, field
from functools import lru_cache
from typing import Any, Dict, List, Optional, Sequence, Tuple, Union

from ..errors import CcpError, cut
from .errors import BadAnswer, NoField
from .names import Declared, Names

CREATE, MEASURE, UPDATE, CHANGE, FAULT, REFUSED = 1, 2, 4, 5, 6, 8
HEAD = struct.Struct("<BBBBHHII")
KINDS = ("Overflow", "Underflow", "ZeroDivisor")
MOST = 2**64 - 1
CWND, RATE, CONTROL = (4, 4), (4, 5), 3


@dataclass
class Create:
    """A flow begins, and waits for its first change: its number, the name of its case, the window in bytes that it
    begins with, and the segment in bytes."""

    flow: int
    case: str
    cwnd: int
    mss: int


@dataclass
class Report:
    """A report on the acknowledgements `first` to `end`, without `end`: `program` is the program's name, `now` the time
    in microseconds, `cwnd` the window in bytes, `rate` the rate in bytes a second. `fields` are the program's, by their
    names; `report["acked"]` is one of them."""

    flow: int
    case: str
    program: str
    epoch: int
    first: int
    end: int
    now: int
    cwnd: int
    rate: int
    fields: Dict[str, int]

    def __getitem__(self, name: str) -> int:
        try:
            return self.fields[name]
        except KeyError:
            raise NoField("the report has no field %s: %s" % (cut(str(name)), self._listed())) from None

    def __getattr__(self, name: str) -> Any:
        # only names that a report doesn't have come here
        text = "a report has no attribute %s: %s, as report[NAME]" % (cut(name), self._listed())
        raise AttributeError(text)

    def _listed(self) -> str:
        """The program's fields, as a message lists them."""
        # a report that is being copied has no members yet
        fields = vars(self).get("fields")
        return "its fields are " + ", ".join(fields) if fields else "its program declares no field"

    def get(self, name: str, default: int = 0) -> int:
        """The value of a field, or `default` where the program has none of this name."""
        return self.fields.get(name, default)


@dataclass
class Fault:
    """The program of a flow faulted at the acknowledgement `ack`, and is stopped until the next change. `kind` is
    Overflow, Underflow or ZeroDivisor, `index` the number of the instruction, `place` its place in the program's text
    as line:column; `now` is the time in microseconds and `cwnd` the window in bytes."""

    flow: int
    case: str
    program: str
    epoch: int
    ack: int
    kind: str
    index: int
    place: str
    now: int
    cwnd: int


@dataclass
class Refused:
    """A frame was refused: its flow, the number of the reason, and the index that goes with the reason."""

    flow: int
    reason: int
    index: int


# what waits for an answer
Event = Union[Create, Report, Fault]


def caller_place() -> Tuple[str, int]:
    """The file and the line of the code that makes an answer."""
    frame = sys._getframe(2)
    return frame.f_code.co_filename, frame.f_lineno


@dataclass(init=False)
class Update:
    """An answer that sets the window in bytes, the rate in bytes a second, and control variables of the program that
    runs; without values it is the answer "nothing". A value is from 0 to 2^64-1; one that isn't whole is rounded to the
    nearest whole number, and a half to the even one."""

    cwnd: Optional[float]
    rate: Optional[float]
    controls: Dict[str, float] = field(default_factory=dict)

    def __init__(self, /, *, cwnd: Optional[float] = None, rate: Optional[float] = None, **controls: float) -> None:
        self.cwnd, self.rate, self.controls = cwnd, rate, controls
        self.made_at = caller_place()


@dataclass(init=False)
class Change:
    """An answer that starts a program, by its name or its number. The window in bytes and the rate in bytes a second
    stay where they aren't given, and control variables that aren't given begin with their declared values. Values are
    as in Update."""

    program: Union[str, int]
    cwnd: Optional[float]
    rate: Optional[float]
    controls: Dict[str, float] = field(default_factory=dict)

    def __init__(
        self,
        program: Union[str, int],
        /,
        *,
        cwnd: Optional[float] = None,
        rate: Optional[float] = None,
        **controls: float,
    ) -> None:
        self.program, self.cwnd, self.rate, self.controls = program, cwnd, rate, controls
        self.made_at = caller_place()


# an answer; None is "nothing"
Answer = Optional[Union[Update, Change]]
# a register, by its class and its number, and what is written to it
Value = Tuple[int, int, int]


# ---- what is sent


def number_of(name: str, value: Any) -> int:
    """A value as the number of 64 bits that is sent for it, or a BadAnswer."""
    number = rounded(name, value)
    if not 0 <= number <= MOST:
        raise BadAnswer("%s is %s: it is from 0 to 2^64-1" % (cut(name), described(value)))
    return number


def rounded(name: str, value: Any) -> int:
    """The whole number that is nearest to a value, and of two the even one. What isn't a finite number is a
    BadAnswer."""
    try:
        return operator.index(value)
    except TypeError:
        pass
    try:
        real = float(value) if hasattr(value, "__float__") else math.nan
    except (TypeError, ValueError, OverflowError):
        real = math.nan
    if not math.isfinite(real):
        raise BadAnswer("%s is %s: a finite number is expected" % (cut(name), described(value)))
    return round(real)


def described(value: Any) -> str:
    """A value of an agent as a message shows it."""
    try:
        return cut(repr(value), 80)
    except Exception:
        return "of the type %s" % cut(type(value).__name__)


def values_of(answer: Union[Update, Change], program: Optional[Declared]) -> List[Value]:
    """The values of an answer in the order of its frame: window, rate, control variables."""
    made = []
    if answer.cwnd is not None:
        made.append((*CWND, number_of("cwnd", answer.cwnd)))
    if answer.rate is not None:
        made.append((*RATE, number_of("rate", answer.rate)))
    for name, value in answer.controls.items():
        if program is None:
            raise BadAnswer("no program runs, so there is no control variable %s" % name)
        made.append((CONTROL, program.control(name), number_of(name, value)))
    return made


def update_frame(flow: int, values: Sequence[Value]) -> bytes:
    """The frame of an Update."""
    return HEAD.pack(UPDATE, 1, len(values), 0, 0, 0, flow, 16 + 10 * len(values)) + values_bytes(values)


def change_frame(flow: int, program: int, values: Sequence[Value]) -> bytes:
    """The frame of a Change."""
    if not 0 <= program < 2**32:
        raise BadAnswer("program %d: a program has a number from 0 on" % program)
    head = HEAD.pack(CHANGE, 1, len(values), 0, 0, 0, flow, 20 + 10 * len(values))
    return head + struct.pack("<I", program) + values_bytes(values)


def values_bytes(values: Sequence[Value]) -> bytes:
    """The values of an Update or a Change."""
    return b"".join([struct.pack("<BBQ", *value) for value in values])


# ---- what comes


@lru_cache(maxsize=None)
def measure_form(version: int, count: int) -> struct.Struct:
    """The body of a Measure with this many fields."""
    return struct.Struct(("<IIIIQQQ%dQ" if version == 1 else "<IIQQQQQ%dQ") % count)


FAULT_FORMS = {1: struct.Struct("<IIIBHQQ"), 2: struct.Struct("<IIQBHQQ")}
CREATE_FORM = struct.Struct("<QI")
REFUSED_FORM = struct.Struct("<BI")


def message_of(frame: bytes, names: Names) -> Union[Event, Refused]:
    """What a whole frame of the program says; one that it doesn't write is a CcpError."""
    kind, version, count, _, _, _, flow, _ = HEAD.unpack_from(frame)
    try:
        if kind == MEASURE:
            program, epoch, first, end, now, cwnd, rate, *values = measure_form(version, count).unpack_from(frame, 16)
            of = declared_in(names, program)
            fields = dict(zip(of.fields, values))
            return Report(flow, names.case(flow), of.name, epoch, first, end, now, cwnd, rate, fields)
        if kind == CREATE:
            cwnd, mss = CREATE_FORM.unpack_from(frame, 16)
            return Create(flow, names.case(flow), cwnd, mss)
        if kind == FAULT:
            return fault_of(flow, FAULT_FORMS[version].unpack_from(frame, 16), names)
        if kind == REFUSED:
            return Refused(flow, *REFUSED_FORM.unpack_from(frame, 16))
    except (struct.error, KeyError, IndexError):
        pass
    raise CcpError("ccp drive wrote a frame that it never writes: %s" % frame[:64].hex())


def declared_in(names: Names, number: int) -> Declared:
    """A program that a frame names."""
    found = names.program(number)
    if found is None:
        raise KeyError(number)
    return found


def fault_of(flow: int, values: Tuple[int, ...], names: Names) -> Fault:
    """The fault that the values of a frame say."""
    from ..reference.code import places
    from ..reference.language import Meaning

    program, epoch, ack, kind, index, now, cwnd = values
    of = declared_in(names, program)
    place = places(Meaning(of.text))[index]
    return Fault(flow, names.case(flow), of.name, epoch, ack, KINDS[kind], index, place, now, cwnd)
