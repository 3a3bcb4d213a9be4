"""`drive` and its three texts, as docs/drive.md has them: flows whose changes and updates an agent outside gives.

    run("drive", data)          what is written of the bytes of a whole input, the status and the line of an error
    Drive()                     the same in pieces: what is written before each next read

It runs as a program too, in place of `ccp`, for an agent that is written or tested where `ccp` isn't:

    python3 -m ccp_tools.reference.driven [--ccp PATH] drive|drive-table|drive-timeline|drive-acks < INPUT

Programs are taken as accepted; with --ccp the program at PATH is asked by `check`. It takes hundreds of times what
`ccp` takes."""
from __future__ import annotations

import os
import re
import sys
from dataclasses import dataclass
from typing import Any, Callable, Dict, Generator, List, Optional, Sequence, Tuple, Union

from .. import program as programs
from ..arguments import Parser
from ..errors import CcpError
from ..tables import LIMITS, STATUSES
from . import modes, scenes, wire
from .agents import first_segments
from .code import Heads, heads
from .flow import Acknowledgement, BaseFlow, Members, Notice, Programs, Report
from .language import State
from .scenes import Check, accepted
from .wire import Frame, Value

MODES = ("drive", "drive-table", "drive-timeline", "drive-acks")
# what the texts call the agent outside
OWN = "own"
SEPARATOR = re.compile(rb"^---\r?\n", re.MULTILINE)
LONGEST_SEPARATOR = len(b"---\r\n")
MOST_SCENARIO, MOST_INPUT = LIMITS["input_bytes"], LIMITS["audit_bytes"]
PIECE = 1 << 16
NO_FLOW, PROGRAM_ABOVE, NO_PROGRAM, NO_REGISTER = 3, 4, 6, 8
# what refuses a frame: the reason and the index
Refusal = Tuple[int, int]
# a generator that is sent one frame after another
Waiting = Generator[None, Frame, Any]


class DrivenPrograms(Programs):
    """The programs of a scenario, with the places of their code."""

    def __init__(self, scenario: Members) -> None:
        super().__init__(scenario)
        self._heads: Dict[int, Heads] = {}

    def __contains__(self, number: int) -> bool:
        return number < len(self.texts)

    def instruction(self, notice: Notice) -> int:
        """The number of the instruction at which a program faulted."""
        if notice.program not in self._heads:
            self._heads[notice.program] = heads(self[notice.program])
        return next(at for at, head in enumerate(self._heads[notice.program]) if head is notice.fault.node)


class DrivenFlow(BaseFlow):
    """A flow that an agent outside drives. `begin` is its first change, and `settle` applies an answer."""

    programs: DrivenPrograms

    def __init__(
        self,
        number: int,
        case: Members,
        traces: Members,
        programs: DrivenPrograms,
        heard: Callable[[Acknowledgement], None] = lambda ack: None,
    ) -> None:
        super().__init__(number, case, traces, programs, OWN, heard)
        self.state = State({}, first_segments(case["mss"]) * case["mss"], 0, 0)

    def refusal(self, given: Frame) -> Optional[Refusal]:
        """Why an Update or a Change can't be applied, or None."""
        if given.flow != self.number:
            return NO_FLOW, 0
        number = self.program if given.program is None else given.program
        if number >= LIMITS["kept_programs"]:
            return PROGRAM_ABOVE, number
        if number not in self.programs:
            return NO_PROGRAM, number
        if given.program is None and not self.epochs:
            return NO_PROGRAM, 0
        count = len(self.programs[number].controls)
        bad = [at for at, (of, index, _) in enumerate(given.values) if of == wire.CONTROL and index >= count]
        return (NO_REGISTER, bad[0]) if bad else None

    def begin(self, given: Frame) -> None:
        """The first change."""
        self._change(given)

    def settle(self, given: Frame) -> None:
        """Applies an answer to the ticket that is out."""
        self._closed().reply = reply_text(given)
        if given.program is not None:
            self._change(given)
        else:
            self._write(self.state, given.values)
        self.peak = max(self.peak, self.state.cwnd)

    def _change(self, given: Frame) -> None:
        assert given.program is not None
        self.program = given.program
        state = self.programs[given.program].start({}, self.state.cwnd, self.state.rate, self.last)
        self._write(state, given.values)
        self._begin_epoch(given.program, state)

    def _write(self, state: State, values: Sequence[Value]) -> None:
        controls = self.programs[self.program].controls
        for of, index, value in values:
            if of == wire.CONTROL:
                state.names[controls[index]] = value
            elif index == wire.CWND:
                state.cwnd = value
            else:
                state.rate = value

    # ---- what it writes to its agent

    def create(self) -> bytes:
        """The Create of the flow."""
        return wire.create(self.number, self.state.cwnd, self.case["mss"])

    def message(self) -> bytes:
        """The Measure or the Fault of the ticket that is out."""
        assert self.out is not None
        subject = self.out.subject
        if isinstance(subject, Notice):
            what = (wire.KINDS.index(subject.fault.kind), self.programs.instruction(subject))
            return wire.fault(
                self.number, subject.program, subject.epoch, subject.ack, what, (subject.now, subject.cwnd)
            )
        return self._measure(subject)

    def _measure(self, report: Report) -> bytes:
        values = [value for _, value in report.fields]
        version = 1 if len(values) <= LIMITS["short_fields"] else 2
        seen = (report.now, report.cwnd, report.rate)
        return wire.measure(self.number, report.program, report.epoch, report.span, seen, values, version)


def reply_text(given: Frame) -> str:
    """An answer as the line of its ticket shows it."""
    names = {(wire.IMPLICIT, wire.CWND): "cwnd", (wire.IMPLICIT, wire.RATE): "rate"}
    shown = ["%s=%d" % (names.get((of, at), "control%d" % at), value) for of, at, value in given.values]
    if given.program is not None:
        return "change:%d:%s" % (given.program, ",".join(shown))
    return "update:%s" % ",".join(shown) if shown else "none"


# ---- the runs of all flows


class Runs:
    """The flows of a scenario, each driven to its end before the next one. `written` are the bytes that are written and
    not handed on yet, and `present` is the flow that waits for a frame; None after the last one."""

    def __init__(self, scenario: Members, lists_acks: bool = False) -> None:
        self.acks: List[str] = []
        known = DrivenPrograms(scenario)
        heard = self._listed if lists_acks else lambda ack: None
        self.flows = [
            DrivenFlow(number, case, scenario["traces"], known, heard) for number, case in enumerate(scenario["cases"])
        ]
        self.written = bytearray()
        self.present: Optional[DrivenFlow] = None
        self._course = self._all()
        next(self._course)

    def _listed(self, ack: Acknowledgement) -> None:
        self.acks.append(modes.ack_line(ack))

    def answer(self, frame: Frame) -> None:
        """Treats a frame of the agent."""
        if frame.kind in (wire.UPDATE, wire.CHANGE):
            self._course.send(frame)

    def _all(self) -> Waiting:
        for self.present in self.flows:
            flow = self.present
            self.acks.append(flow.head())
            self.written += flow.create()
            flow.begin((yield from self._applicable(flow)))
            yield from self._course_of(flow)
        self.present = None
        while True:
            frame = yield
            self._refuse(frame, (NO_FLOW, 0))

    def _course_of(self, flow: DrivenFlow) -> Waiting:
        """The campaign word of a flow, whose agent answers each ticket as soon as it is taken."""
        answer: Optional[Frame] = None
        letter = flow.next_letter()
        while letter:
            if letter == "A":
                flow.ack()
            elif letter == "T":
                flow.take()
                self.written += flow.message()
                answer = yield from self._applicable(flow)
            else:
                assert answer is not None
                flow.settle(answer)
            letter = flow.next_letter()

    def _applicable(self, flow: DrivenFlow) -> Generator[None, Frame, Frame]:
        """The next frame that the flow can apply; those before it are refused."""
        while True:
            frame = yield
            why = flow.refusal(frame)
            if why is None:
                return frame
            self._refuse(frame, why)

    def _refuse(self, frame: Frame, why: Refusal) -> None:
        self.written += wire.refused(frame.flow, *why, frame.version)

    def text(self, mode: str) -> str:
        """The text of a mode, once no flow waits any more."""
        if mode == "drive-table":
            return modes.table_text([flow.row() for flow in self.flows])
        lines = self.acks if mode == "drive-acks" else [line for flow in self.flows for line in flow.lines()]
        return "".join(line + "\n" for line in lines)


class Drive:
    """A run of `drive` over an input that comes in pieces: `take` gives what is written before the next read, and
    `end` says what is wrong with the whole. `refused` is what the input is refused for, as soon as that is known."""

    def __init__(self, refusal_of: Check = accepted, lists_acks: bool = False) -> None:
        self.refused: Optional[str] = None
        self.runs: Optional[Runs] = None
        self._refusal_of = refusal_of
        self._lists_acks = lists_acks
        self._held = bytearray()
        # how many bytes came, and how many of them belong to frames that were treated, or to the scenario
        self._count = self._done = 0

    def take(self, piece: bytes) -> bytes:
        """Takes the next piece of the input, and returns what is written before the next read."""
        if self.refused is None:
            self._held += piece[: max(0, MOST_INPUT - self._count)]
            self._count += len(piece)
            self._read()
        if self.runs is None:
            return b""
        written, self.runs.written = bytes(self.runs.written), bytearray()
        return written

    def _read(self) -> None:
        try:
            if self.runs is None:
                self._read_scenario()
            if self.runs is not None:
                self._read_frames(self.runs)
        except scenes.Refused as why:
            self.refused = str(why)
        except wire.Bad as bad:
            self.refused = "frame %s at %d" % (bad.kind, self._done + bad.offset)
        if self.refused is None and self._count > MOST_INPUT:
            self.refused = "more than %d bytes" % MOST_INPUT

    def _read_scenario(self) -> None:
        found = SEPARATOR.search(self._held)
        first = found.start() if found else len(self._held) - LONGEST_SEPARATOR
        if first > MOST_SCENARIO:
            raise scenes.Refused("more than %d bytes" % MOST_SCENARIO)
        if found:
            scenario = scenes.scene_of(bytes(self._held[:first]), "drive", self._refusal_of)
            self.runs = Runs(scenario, self._lists_acks)
            self._drop(found.end())

    def _read_frames(self, runs: Runs) -> None:
        at = 0
        try:
            while True:
                frame = wire.frame_at(self._held, at, len(self._held))
                at += frame.length
                runs.answer(frame)
        except wire.Cut:
            self._drop(at)

    def _drop(self, count: int) -> None:
        self._done += count
        del self._held[:count]

    def end(self) -> Optional[str]:
        """What the input is refused for, now that all of it came, or None."""
        if self.refused is None and self.runs is None:
            is_long = len(self._held) > MOST_SCENARIO
            self.refused = "more than %d bytes" % MOST_SCENARIO if is_long else "no separator"
        elif self.refused is None and self.runs is not None and (self._held or self.runs.present):
            self.refused = "frame cut at %d" % self._done
        return self.refused


# ---- whole inputs


@dataclass(frozen=True)
class Made:
    """What a run writes on standard output and on standard error, and its status."""

    output: bytes
    errors: str
    status: int


def run(mode: str, data: bytes, refusal_of: Check = accepted) -> Made:
    """What a mode makes of a whole input, without `--wire`."""
    drive = Drive(refusal_of, mode == "drive-acks")
    written = drive.take(data)
    return ended(mode, drive, written)


def ended(mode: str, drive: Drive, written: bytes) -> Made:
    """The end of a run whose whole input came; `written` is what belongs on standard output up to there in `drive`."""
    refused = drive.end()
    output = written if mode == "drive" else b""
    if refused is not None:
        return Made(output, "ccp: input refused: %s\n" % refused, 3)
    assert drive.runs is not None
    return Made(output if mode == "drive" else drive.runs.text(mode).encode(), "", 0)


# ---- as a program


def check_of(path: Union[str, None]) -> Check:
    """Asks the program at a path by `check`."""
    if path is None:
        return accepted

    def refusal_of(text: str) -> Optional[str]:
        ran = programs.run("check", text, program=path, check=False)
        found = re.fullmatch("ccp: input refused: program (.*)\n", ran.errors)
        return found.group(1) if found else None

    return refusal_of


def main(words: Sequence[str]) -> int:
    """Runs a mode on standard input, and returns the exit status."""
    parser = Parser(prog="python3 -m ccp_tools.reference.driven", description=__doc__)
    parser.add_argument("--ccp", metavar="PATH", help="the program that says whether a text is accepted")
    parser.add_argument("mode", choices=MODES, metavar="MODE", help=", ".join(MODES))
    try:
        asked = parser.parse_args(words)
    except CcpError:
        return fail(2, "words refused")
    drive = Drive(check_of(asked.ccp), asked.mode == "drive-acks")
    try:
        return stream(asked.mode, drive)
    except OSError:
        return fail(5, STATUSES[5])


def stream(mode: str, drive: Drive) -> int:
    """Runs a mode on standard input piece by piece."""
    while drive.refused is None:
        try:
            piece = os.read(0, PIECE)
        except OSError:
            return fail(4, STATUSES[4])
        if not piece:
            break
        written = drive.take(piece)
        if mode == "drive":
            write(written)
    made = ended(mode, drive, b"")
    write(made.output)
    sys.stderr.write(made.errors)
    return made.status


def write(data: bytes) -> None:
    """Writes bytes to standard output."""
    rest = memoryview(data)
    while rest:
        rest = rest[os.write(1, rest) :]


def fail(status: int, text: str) -> int:
    """Prints the line of an error, and returns the status."""
    sys.stderr.write("ccp: %s\n" % text)
    return status


if __name__ == "__main__":
    sys.exit(main(sys.argv[1:]))
