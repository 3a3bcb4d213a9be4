"""A session of an agent with `ccp drive`: the events of its flows, what it answers, and the recording of that."""
from __future__ import annotations

import hashlib
import json
from contextlib import suppress
from pathlib import Path
from typing import IO, Any, Dict, Iterator, List, Mapping, Optional, Union

from ..errors import CcpError
from ..files import name_of, reason_of
from ..scenario_files import GivenScenario, given_scenario, scenario_text
from .errors import BadAnswer, FrameRefused, NotAsked
from .messages import (
    Answer,
    Change,
    Create,
    Fault,
    Refused,
    Report,
    Event,
    Update,
    change_frame,
    described,
    message_of,
    number_of,
    update_frame,
    values_of,
)
from .names import Declared, Names
from .pipes import Pipes, checked_timeout, drive_words

# no scenario has a flow of this number: an update of it is refused at once, also after the last flow
NO_FLOW = 2**32 - 1
PROBE = update_frame(NO_FLOW, ())
SEPARATOR = b"---\n"
OTHER_FLOW, PROGRAM_ABOVE, NO_PROGRAM, NO_REGISTER = 3, 4, 6, 8


def scenario_bytes(scenario: GivenScenario) -> bytes:
    """The bytes of a scenario, as given_scenario takes it, with a line end at its end."""
    given = given_scenario(scenario)
    data = given if isinstance(given, bytes) else text_of(given).encode("utf-8", "surrogateescape")
    return data if data.endswith(b"\n") else data + b"\n"


def text_of(scenario: Mapping[str, Any]) -> str:
    """The text of a scenario's members. One that the program refuses goes to it as it is."""
    try:
        return scenario_text(scenario) if isinstance(scenario.get("cases"), list) else json.dumps(scenario)
    except (TypeError, ValueError, RecursionError) as error:
        raise CcpError("the scenario's members can't be written as JSON: %s" % error) from None


def with_programs(scenario: Mapping[str, Any], programs: Mapping[str, str]) -> Dict[str, Any]:
    """A scenario with programs of its agent. A name that it has for another text is a CcpError."""
    given = scenario.get("programs", {})
    if not isinstance(given, Mapping):
        # the program refuses it
        return dict(scenario)
    known = dict(given)
    for name, text in programs.items():
        if known.get(name, text) != text:
            raise CcpError("the agent has a program %s, and the scenario has another one of this name" % name)
        known[name] = text
    return {**scenario, "programs": known} if known else dict(scenario)


class Session:
    """`ccp drive` over a scenario, and an agent's side of it.

    `event` is what waits for an answer: a Create, a Report or a Fault, and None once the run is over. `change` and
    `update` answer it, and return the next one; so does `answer`, which takes an answer as an object. A loop over a
    session has its events, each of which is answered before the next:

        with Session("scenario.json", record="run.drive") as session:
            for event in session:
                if isinstance(event, Report):
                    session.update(cwnd=2 * event["acked"])
                else:
                    session.change("p", cwnd=14480, gain=2)

    `scenario` is a dict, a text, or the path of a file; `program` the path of `ccp`; `record` the path of a file that
    gets the recording, which is an input of `drive`, `drive-table`, `drive-timeline` and `drive-acks`. The program may
    be silent for `timeout` seconds; None waits for ever.

    Errors, each a CcpError: BadAnswer (a name or a number that can't be sent), NotAsked (no flow waits), FrameRefused
    (the program refused a frame; its flow still waits), Ended (the program ended, as for a scenario that is refused),
    Silent."""

    def __init__(
        self,
        scenario: GivenScenario,
        *,
        program: Union[str, Path, None] = None,
        record: Union[str, Path, None] = None,
        timeout: Optional[float] = None,
    ) -> None:
        self._scenario = scenario_bytes(scenario)
        self._program, self._record, self._timeout = program, record, checked_timeout(timeout)
        self._file: Optional[IO[bytes]] = None
        self._pipes: Optional[Pipes] = None
        self._sent: List[bytes] = []
        # how many refusals of PROBE come before what is waited for, and whether the last answer had one behind it
        self._stale = 0
        self._is_probed = False
        # the program that runs, and the number of the one that the last answer asked for
        self._running: Optional[Declared] = None
        self._asked: Optional[int] = None
        self.names = Names.of(self._scenario)
        self.event: Optional[Event] = None

    # ---- begin and end

    def __enter__(self) -> Session:
        self.start()
        return self

    def __exit__(self, kind: Any, error: Any, trace: Any) -> None:
        if error is None:
            self.finish()
        else:
            self.close()

    def start(self) -> Optional[Event]:
        """Begins the run, and returns the Create of its first flow; None where the scenario has no case."""
        if self._pipes is not None:
            raise CcpError("the session has begun already")
        if self._record is not None:
            try:
                self._file = open(self._record, "wb")
            except OSError as error:
                raise self._unrecorded(error) from None
        try:
            self._pipes = Pipes(drive_words(self._program), self._timeout)
            self._send(self._scenario + SEPARATOR)
            if not self.names.cases:
                # a scenario without cases, or one that is refused
                self._send(PROBE)
                self._is_probed = True
            self.event = self._next()
        except BaseException:
            self.close()
            raise
        return self.event

    def finish(self) -> None:
        """Ends the frames, and waits for the program. Where a flow still waits for an answer, or where the program has
        another status than 0, that is Ended."""
        pipes = self._running_pipes()
        if pipes.is_closed:
            return
        try:
            pipes.end_input()
            pipes.rest()
            status = pipes.status()
            if status:
                when = "the session ended while flow %d waited for an answer" % self.event.flow if self.event else ""
                raise pipes.ended(when)
            self._keep(b"", is_last=True)
        finally:
            self.close()

    def close(self) -> None:
        """Ends the program where it runs, and closes the recording. What of it can't be written is lost without an
        error; `finish` raises one."""
        self.event = None
        if self._pipes is not None:
            self._pipes.close()
        if self._file is not None:
            with suppress(OSError):
                self._file.close()
            self._file = None

    def _keep(self, data: bytes, is_last: bool = False) -> None:
        """Writes what was sent to the recording. An error of what comes before the last part may show there."""
        if self._file is None:
            return
        try:
            self._file.write(data)
            if is_last:
                self._file.flush()
        except OSError as error:
            raise self._unrecorded(error) from None

    def _unrecorded(self, error: OSError) -> CcpError:
        """The error of a recording that can't be written."""
        return CcpError("%s: %s" % (name_of(self._record or ""), reason_of(error)))

    @property
    def pid(self) -> int:
        """The number of the program's process."""
        return self._running_pipes().pid

    def _running_pipes(self) -> Pipes:
        if self._pipes is None:
            raise CcpError("the session hasn't begun: `with Session(..) as session`, or session.start()")
        return self._pipes

    # ---- events

    def __iter__(self) -> Iterator[Event]:
        """What waits for an answer, one after another, up to the end of the run."""
        while self.event is not None:
            event = self.event
            yield event
            if self.event is event:
                raise NotAsked('%s isn\'t answered: session.update() is the answer "nothing"' % shown(event))

    def _next(self) -> Optional[Event]:
        """The next event, or None at the end of the run."""
        message = self.receive()
        if isinstance(message, Refused) and message.flow == NO_FLOW:
            return None
        self._stale += self._is_probed
        if isinstance(message, Refused):
            raise self._refusal(message)
        if isinstance(message, Create):
            self._running = None
        return message

    # ---- answers

    def change(
        self,
        program: Union[str, int],
        /,
        *,
        cwnd: Optional[float] = None,
        rate: Optional[float] = None,
        **controls: float,
    ) -> Optional[Event]:
        """Answers by a change to a program, and returns what comes next, as Change has it."""
        return self.answer(Change(program, cwnd=cwnd, rate=rate, **controls))

    def update(
        self, /, *, cwnd: Optional[float] = None, rate: Optional[float] = None, **controls: float
    ) -> Optional[Event]:
        """Answers by an update, and returns what comes next, as Update has it."""
        return self.answer(Update(cwnd=cwnd, rate=rate, **controls))

    def answer(self, answer: Answer) -> Optional[Event]:
        """Answers what waits, and returns what comes next; None is the answer "nothing"."""
        if self.event is None:
            raise NotAsked("no flow waits for an answer: the run is over, or hasn't begun")
        flow, given, before = self.event.flow, Update() if answer is None else answer, self._running
        if isinstance(given, Change):
            number = number_of("program", self.names.number(given.program))
            program = self.names.program(number)
            frame = change_frame(flow, number, values_of(given, program))
            self._asked, self._running = number, program
        elif not isinstance(given, Update):
            raise BadAnswer("an answer is an Update, a Change or None, not %s" % described(answer))
        else:
            frame = update_frame(flow, values_of(given, self._running))
            self._asked = None
        self._answer(flow, frame)
        try:
            self.event = self._next()
        except FrameRefused:
            self._running = before
            raise
        return self.event

    def _answer(self, flow: int, frame: bytes) -> None:
        """Sends an answer; behind one of the last flow an update that is refused, which marks the end of what comes."""
        self._is_probed = flow == len(self.names.cases) - 1
        self._send(frame + PROBE if self._is_probed else frame)

    # ---- frames of the agent's own

    def send(self, data: bytes) -> None:
        """Sends bytes of your own making, as they are: they needn't be frames. Read what comes by `receive`."""
        self._send(data)

    def receive(self) -> Union[Event, Refused]:
        """The next message, also a Refused; the refusals of the session's own updates of NO_FLOW are left out."""
        while True:
            message = message_of(self._running_pipes().frame(), self.names)
            if not self._stale or not isinstance(message, Refused) or message.flow != NO_FLOW:
                return message
            self._stale -= 1

    def _send(self, data: bytes) -> None:
        pipes = self._running_pipes()
        self._sent.append(data)
        self._keep(data)
        pipes.write(data)

    @property
    def recording(self) -> bytes:
        """What was sent so far, byte for byte: the scenario, the line `---`, and the frames."""
        return b"".join(self._sent)

    @property
    def sha256(self) -> str:
        """The SHA-256 of the recording so far, in hex."""
        return hashlib.sha256(self.recording).hexdigest()

    # ---- refusals

    def _refusal(self, refused: Refused) -> FrameRefused:
        """The error of a refused answer."""
        text = cause(refused, self._asked, self._running, self.names)
        return FrameRefused(text, refused.reason, refused.index, refused.flow)


def cause(refused: Refused, program: Optional[int], running: Optional[Declared], names: Names) -> str:
    """Why a frame was refused, in words."""
    if refused.reason == OTHER_FLOW:
        return "the frame is one of flow %d, which doesn't wait for an answer" % refused.flow
    if refused.reason == PROGRAM_ABOVE:
        return "program %d: programs have numbers below 16; there are %s" % (refused.index, names.listed())
    if refused.reason == NO_PROGRAM and program is None:
        return "an update came before the flow's first change: a Create is answered by a change"
    if refused.reason == NO_PROGRAM:
        return "there is no program %d: there are %s" % (refused.index, names.listed())
    if refused.reason == NO_REGISTER:
        of = running if program is None else names.program(program)
        name = "the program" if of is None else "the program %s" % of.page_name
        return "value %d of the frame, counted from 0, is for a control variable that %s doesn't have" % (
            refused.index,
            name,
        )
    return "the frame was refused"


def shown(event: Event) -> str:
    """What waits, as a message names it."""
    if isinstance(event, Report):
        return "the report of flow %d on acknowledgements %d to %d" % (event.flow, event.first, event.end)
    what = "fault at acknowledgement %d" % event.ack if isinstance(event, Fault) else "beginning"
    return "the %s of flow %d" % (what, event.flow)
