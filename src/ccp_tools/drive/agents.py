"""Agents as classes, and runs of them."""
from __future__ import annotations

import hashlib
import importlib.util
import inspect
import sys
import traceback
from contextlib import contextmanager
from dataclasses import dataclass
from pathlib import Path
from typing import TYPE_CHECKING, Any, Callable, Iterator, Mapping, Optional, Union

from .. import program as programs
from ..errors import CcpError, cut
from ..files import name_of, read_bytes, write_bytes
from ..scenario_files import GivenScenario, given_scenario, scenario_of
from .errors import AgentFailed, BadAnswer, FrameRefused
from .messages import Answer, Change, Create, Event, Fault, Report, Update, described
from .session import Session, with_programs

if TYPE_CHECKING:
    import pandas as pd

    from ..frames import Timeline

# the folder of this package, whose lines are none of the agent's
OWN = Path(__file__).parent


class Agent:
    """An agent: it answers what flows tell. One object drives all flows of a scenario, one after another, so
    `on_create` begins anew. `programs` are texts of datapath programs by their names, which a run adds to those of the
    scenario."""

    programs: Mapping[str, str] = {}

    def on_create(self, create: Create) -> Change:
        """The first change of a flow."""
        raise NotImplementedError("%s has no on_create, which answers the beginning of a flow" % type(self).__name__)

    def on_report(self, report: Report) -> Answer:
        """The answer to a report: an Update, a Change, or None, which is the answer "nothing"."""
        return None

    def on_fault(self, fault: Fault) -> Answer:
        """The answer to a fault: unless it is overridden, the program starts again, with its declared values and the
        window as it is. After any other answer it stays stopped."""
        return Change(fault.program)

    def answer(self, event: Event) -> Answer:
        """The answer to what waits."""
        if isinstance(event, Create):
            return self.on_create(event)
        return self.on_report(event) if isinstance(event, Report) else self.on_fault(event)


@dataclass(frozen=True)
class Driven:
    """A run of an agent. `recording` is an input of `drive` and its texts: from it anybody works the run out again,
    without the agent. `program` is the path of the program, or None for the one that is found."""

    recording: bytes
    program: Union[str, Path, None] = None

    @property
    def sha256(self) -> str:
        """The SHA-256 of the recording, in hex."""
        return hashlib.sha256(self.recording).hexdigest()

    def text(self, mode: str) -> str:
        """What a mode prints of the recording."""
        return programs.run(mode, self.recording, program=self.program).output

    def table(self) -> pd.DataFrame:
        """The rows of the flows, as ccp_tools.frames.read_table has them."""
        from .. import frames

        return frames.read_table(self.text("drive-table"))

    def timeline(self) -> Timeline:
        """The reports, faults, epochs and ends of the flows, as ccp_tools.frames.read_timeline has them."""
        from .. import frames

        return frames.read_timeline(self.text("drive-timeline"))

    def acks(self) -> pd.DataFrame:
        """The acknowledgements of the flows, as ccp_tools.frames.read_acks has them."""
        from .. import frames

        return frames.read_acks(self.text("drive-acks"))

    def save(self, path: Union[str, Path]) -> None:
        """Writes the recording to a file. One that can't be written is a CcpError."""
        write_bytes(path, self.recording)


def run(
    agent: Agent,
    scenario: GivenScenario,
    *,
    program: Union[str, Path, None] = None,
    record: Union[str, Path, None] = None,
    timeout: Optional[float] = None,
    on_event: Callable[[Event], None] = lambda event: None,
) -> Driven:
    """Drives the flows of a scenario by an agent, to their ends. `on_event` is called with each event, and the rest is
    as in Session. Errors: those of Session, and what the agent raises. A BadAnswer and a FrameRefused name the line
    that made the answer."""
    text = with_programs_of(agent, scenario)
    with Session(text, program=program, record=record, timeout=timeout) as session:
        for one in session:
            on_event(one)
            given = agent.answer(one)
            try:
                if isinstance(one, Create) and not isinstance(given, Change):
                    raise BadAnswer("on_create gave %s: the first answer of a flow is a Change" % described(given))
                session.answer(given)
            except (BadAnswer, FrameRefused) as error:
                error.args = ("%s: %s" % (answer_place(agent, one, given), error),)
                raise
        recording = session.recording
    return Driven(recording, program)


def answer_place(agent: Agent, event: Event, answer: Any) -> str:
    """Where an answer was made, as FILE:LINE: by the line that made it, or else by the agent's method."""
    if isinstance(answer, (Update, Change)) and Path(answer.made_at[0]).parent != OWN:
        return "%s:%d" % (name_of(answer.made_at[0]), answer.made_at[1])
    name = "on_" + type(event).__name__.lower()
    code = getattr(getattr(agent, name), "__code__", None)
    return "%s:%d" % (name_of(code.co_filename), code.co_firstlineno) if code else name


def with_programs_of(agent: Agent, scenario: GivenScenario) -> GivenScenario:
    """A scenario with the programs of an agent; without any it stays as it is."""
    own = checked_programs(agent)
    if not own:
        return scenario
    given = given_scenario(scenario)
    if isinstance(given, bytes):
        is_path = isinstance(scenario, Path) or isinstance(scenario, str) and not scenario.lstrip().startswith("{")
        given = scenario_of(given.decode("utf-8", "surrogateescape"), name_of(str(scenario)) if is_path else "scenario")
    return with_programs(given, own)


def checked_programs(agent: Agent) -> Mapping[str, str]:
    """The programs of an agent. What is no dict of texts is a BadAnswer."""
    own = agent.programs
    if not isinstance(own, Mapping) or not all(isinstance(one, str) for item in own.items() for one in item):
        raise BadAnswer("the agent's programs are %s: texts by their names are expected" % described(own))
    return own


# ---- agents in files


def run_file(path: Union[str, Path], scenario: GivenScenario, **options: Any) -> Driven:
    """A run of the agent of a Python file, as `run` has it. What the agent itself raises is an AgentFailed."""
    agent = load_agent(path)
    with blamed(path):
        return run(agent, scenario, **options)


@contextmanager
def blamed(path: Union[str, Path]) -> Iterator[None]:
    """Has whatever the code of an agent's file raises inside be an AgentFailed, SystemExit too. Errors that don't come
    from this code, and KeyboardInterrupt, pass."""
    try:
        yield
    except KeyboardInterrupt:
        raise
    except BaseException as error:
        place = failed_place(Path(path), error)
        if isinstance(error, CcpError) and not place:
            raise
        raise AgentFailed("the agent failed: %s: %s" % (place or name_of(path), reason_of(error))) from error


def failed_place(path: Path, error: BaseException) -> str:
    """The innermost line of an agent's file, or of a file beside it, that an error went through, as FILE:LINE; an empty
    text where there is none."""
    folder = path.resolve().parent
    places = [(one.filename, one.lineno) for one in traceback.extract_tb(error.__traceback__)]
    if isinstance(error, SyntaxError) and error.filename:
        places.append((error.filename, error.lineno))
    # code without a file has a name in angle brackets
    own = [place for place in places if place[0][:1] != "<" and Path(place[0]).resolve().parent == folder]
    return "%s:%s" % (name_of(own[-1][0]), own[-1][1] or 1) if own else ""


def reason_of(error: BaseException) -> str:
    """An error as a message has it: its type, unless it is one of this package, and its text."""
    try:
        text = cut(error.msg if isinstance(error, SyntaxError) else str(error))
    except Exception:
        text = "its text can't be made"
    if isinstance(error, CcpError):
        return text
    return ": ".join(part for part in (cut(type(error).__name__), text) if part)


def load_agent(path: Union[str, Path]) -> Agent:
    """The agent of a Python file: its variable `agent`, else an object of the one class in it that is an Agent. What
    the file imports from its own folder is found. Errors: CcpError."""
    with blamed(path):
        agent = agent_of(module_of(Path(path)), name_of(path))
        checked_programs(agent)
    return agent


def agent_of(module: Any, name: str) -> Agent:
    """The agent of a module; `name` is its file's."""
    found = getattr(module, "agent", None)
    if found is not None:
        if not isinstance(found, Agent):
            raise CcpError("%s: its variable `agent` is no object of a class that is an Agent" % name)
        return found
    classes = [
        one
        for one in vars(module).values()
        if inspect.isclass(one) and issubclass(one, Agent) and one.__module__ == module.__name__
    ]
    if len(classes) != 1:
        what = "no class" if not classes else "%d classes" % len(classes)
        raise CcpError("%s: it has %s of the kind Agent; a variable `agent` says which object is meant" % (name, what))
    return classes[0]()


def module_of(path: Path) -> Any:
    """The module that a Python file makes."""
    read_bytes(path)
    name = "agent_of_" + hashlib.sha256(str(path.resolve()).encode("utf-8", "surrogateescape")).hexdigest()[:12]
    spec = importlib.util.spec_from_file_location(name, path)
    if spec is None or spec.loader is None:
        raise CcpError("%s: a Python file is expected, whose name ends with .py" % name_of(path))
    module = importlib.util.module_from_spec(spec)
    sys.modules[name] = module
    folder = str(path.resolve().parent)
    sys.path.insert(0, folder)
    try:
        spec.loader.exec_module(module)
    finally:
        if folder in sys.path:
            sys.path.remove(folder)
    return module
