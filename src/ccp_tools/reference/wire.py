"""Frames of bytes between agent and datapath, as docs/frames.md has them: writing them, and reading them byte by byte,
so that the first byte which no frame has there is found."""
from __future__ import annotations

import struct
from dataclasses import dataclass
from typing import Dict, Optional, Sequence, Tuple, Union

from ..tables import LIMITS, PRIMITIVES

CREATE, MEASURE, INSTALL, UPDATE, CHANGE, FAULT, ACK, REFUSED = range(1, 9)
KINDS = ("Overflow", "Underflow", "ZeroDivisor")
HEAD = 16
CONTROL, IMPLICIT = 3, 4
CWND, RATE = 4, 5
# the greatest number of a register of each class; any number is an immediate
GREATEST = {0: None, 1: 255, 2: 255, 3: 255, IMPLICIT: 5, 5: 255, 6: 255}
# a register by its class and its number, and what is written to it
Value = Tuple[int, int, int]


class Bad(Exception):
    """A byte that no frame has there: the kind of its field, and its offset."""

    def __init__(self, kind: str, offset: int) -> None:
        super().__init__("%s at %d" % (kind, offset))
        self.kind = kind
        self.offset = offset


class Cut(Exception):
    """The bytes end within a frame."""


@dataclass(frozen=True)
class Frame:
    """A whole frame, without the body of the kinds with which no agent answers. `program` is that of a Change."""

    kind: int
    version: int
    flow: int
    length: int
    program: Optional[int] = None
    values: Sequence[Value] = ()


# ---- writing


def frame(kind: int, version: int, flow: int, body: bytes, n1: int = 0) -> bytes:
    """A frame whose other counts are 0."""
    return struct.pack("<BBBBHHII", kind, version, n1, 0, 0, 0, flow, HEAD + len(body)) + body


def create(flow: int, cwnd: int, mss: int, version: int = 1) -> bytes:
    """A Create, with the window and the segment in bytes."""
    return frame(CREATE, version, flow, struct.pack("<QI", cwnd, mss))


def measure(
    flow: int,
    program: int,
    epoch: int,
    span: Tuple[int, int],
    seen: Tuple[int, int, int],
    fields: Sequence[int],
    version: int = 1,
) -> bytes:
    """A Measure; `seen` are the time in microseconds, the window in bytes and the rate in bytes a second."""
    form = "<IIIIQQQ" if version == 1 else "<IIQQQQQ"
    body = struct.pack(form, program, epoch, *span, *seen) + struct.pack("<%dQ" % len(fields), *fields)
    return frame(MEASURE, version, flow, body, len(fields))


def fault(
    flow: int, program: int, epoch: int, at: int, what: Tuple[int, int], seen: Tuple[int, int], version: int = 1
) -> bytes:
    """A Fault at acknowledgement `at`; `what` are the number of its kind and that of its instruction, `seen` the time
    in microseconds and the window in bytes."""
    form = "<IIIBHQQ" if version == 1 else "<IIQBHQQ"
    return frame(FAULT, version, flow, struct.pack(form, program, epoch, at, *what, *seen))


def refused(flow: int, reason: int, index: int, version: int = 1) -> bytes:
    """A Refused."""
    return frame(REFUSED, version, flow, struct.pack("<BI", reason, index))


def ack(flow: int, given: Dict[str, int], version: int = 1) -> bytes:
    """An Ack of an acknowledgement; a primitive that isn't given is 0."""
    body = struct.pack("<%dQ" % len(PRIMITIVES), *[given.get(name, 0) for name in PRIMITIVES])
    return frame(ACK, version, flow, body)


def values_bytes(values: Sequence[Value]) -> bytes:
    """Values as an Update or a Change has them."""
    return b"".join(struct.pack("<BBQ", *value) for value in values)


def update(flow: int, values: Sequence[Value] = (), version: int = 1) -> bytes:
    """An Update."""
    return frame(UPDATE, version, flow, values_bytes(values), len(values))


def change(flow: int, program: int, values: Sequence[Value] = (), version: int = 1) -> bytes:
    """A Change."""
    return frame(CHANGE, version, flow, struct.pack("<I", program) + values_bytes(values), len(values))


# ---- reading


class Reader:
    """The bytes of a frame from `at` on; those from `end` on aren't there yet."""

    def __init__(self, data: Union[bytes, bytearray], at: int, end: int) -> None:
        self.data = data
        self.at = at
        self.end = end

    def skip(self, size: int) -> None:
        """Passes bytes that can have any value."""
        if self.end - self.at < size:
            raise Cut
        self.at += size

    def free(self, size: int) -> int:
        """A number that can have any value."""
        begin = self.at
        self.skip(size)
        return int.from_bytes(self.data[begin : self.at], "little")

    def number(self, size: int, most: int, bad: str, least: int = 0) -> int:
        """A number from `least` to `most`. A byte with which every number is above `most` is bad."""
        value = 0
        for place in range(size):
            if self.at == self.end:
                raise Cut
            value += self.data[self.at] << 8 * place
            if value > most or size == 1 and value < least:
                raise Bad(bad, self.at)
            self.at += 1
        return value

    def exact(self, size: int, value: int, bad: str) -> None:
        """A number that has this value alone."""
        for byte in value.to_bytes(size, "little"):
            if self.at == self.end:
                raise Cut
            if self.data[self.at] != byte:
                raise Bad(bad, self.at)
            self.at += 1

    # ---- parts of bodies

    def value(self) -> Value:
        """A value of an Update or a Change."""
        of = self.number(1, IMPLICIT, "Class", CONTROL)
        if of == CONTROL:
            index = self.number(1, LIMITS["controls"] - 1, "Index")
        else:
            index = self.number(1, RATE, "Index", CWND)
        return of, index, self.free(8)

    def values(self, count: int) -> Tuple[Value, ...]:
        """The values of an Update or a Change."""
        return tuple(self.value() for _ in range(count))

    def code(self, counts: Sequence[int]) -> None:
        """The body of an Install after its program."""
        reports, controls, events, instructions = counts
        for _ in range(reports + controls):
            self.number(1, 1, "Flag")
            self.skip(8)
        self.skip(4 * events)
        for _ in range(instructions):
            self.number(1, LIMITS["operation"], "Op")
            for _ in range(3):
                self.register()

    def register(self) -> None:
        """A register of an instruction."""
        greatest = GREATEST[self.number(1, len(GREATEST) - 1, "Class")]
        if greatest is None:
            self.skip(8)
        else:
            self.number(8, greatest, "Index")


def most_counts(kind: int, version: int) -> Sequence[int]:
    """The greatest n1 to n4 of a kind."""
    wide = LIMITS["short_fields"] if version == 1 else LIMITS["fields"]
    if kind == MEASURE:
        return wide, 0, 0, 0
    if kind == INSTALL:
        return wide, LIMITS["controls"], LIMITS["blocks"], LIMITS["instrs"]
    return LIMITS["pairs"] if kind in (UPDATE, CHANGE) else 0, 0, 0, 0


def length_of(kind: int, version: int, counts: Sequence[int]) -> int:
    """The length of a frame with these counts."""
    n1, n2, n3, n4 = counts
    by_kind = {
        CREATE: 28,
        MEASURE: (56 if version == 1 else 64) + 8 * n1,
        INSTALL: 20 + 9 * n1 + 9 * n2 + 4 * n3 + 28 * n4,
        UPDATE: 16 + 10 * n1,
        CHANGE: 20 + 10 * n1,
        FAULT: 47 if version == 1 else 51,
        ACK: HEAD + 8 * len(PRIMITIVES),
        REFUSED: 21,
    }
    return by_kind[kind]


def frame_at(data: Union[bytes, bytearray], at: int, end: int) -> Frame:
    """The frame that begins at `at`, of bytes up to `end`. It raises Bad for a byte that no frame has there, and Cut
    where the bytes end before the frame does."""
    reader = Reader(data, at, end)
    kind = reader.number(1, REFUSED, "Kind", CREATE)
    version = reader.number(1, 2, "Version", 1)
    counts = [reader.number(size, most, "Count") for size, most in zip((1, 1, 2, 2), most_counts(kind, version))]
    flow = reader.free(4)
    length = length_of(kind, version, counts)
    reader.exact(4, length, "Length")
    program: Optional[int] = None
    values: Sequence[Value] = ()
    if kind in (CHANGE, INSTALL):
        program = reader.free(4)
    if kind in (UPDATE, CHANGE):
        values = reader.values(counts[0])
    elif kind == INSTALL:
        reader.code(counts)
    elif kind == FAULT:
        reader.skip(12 if version == 1 else 16)
        reader.number(1, len(KINDS) - 1, "FaultKind")
    elif kind == ACK:
        reader.skip(8 * (len(PRIMITIVES) - 1))
        reader.number(8, 1, "Flag")
    elif kind == REFUSED:
        reader.number(1, LIMITS["reason"], "Kind", 1)
    reader.skip(at + length - reader.at)
    return Frame(kind, version, flow, length, program, values)
