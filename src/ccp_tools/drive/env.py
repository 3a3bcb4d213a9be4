"""An environment for learners, in the form of Gymnasium (https://gymnasium.farama.org) and without it: its episodes are
the cases of a scenario, and a step goes from a report to the next one."""
from __future__ import annotations

from dataclasses import dataclass
from pathlib import Path
from typing import Any, Callable, Dict, List, Mapping, Optional, Sequence, Tuple, Union

import numpy as np

from ..errors import CcpError
from .agents import Driven
from .errors import BadAnswer
from .messages import MOST, Change, Create, Event, Fault, Report, Update, number_of, rounded
from .session import GivenScenario, Session, scenario_bytes

# what an observation may have beside the fields of the program
SEEN = ("first", "end", "now", "cwnd", "rate")
Reward = Callable[[Report, Optional[Report]], float]
Info = Dict[str, Any]


def bounds_of(name: str, low: float, high: float) -> Tuple[int, int]:
    """The least and the greatest value that an action sends. Those of no range are a BadAnswer."""
    made = number_of("the least " + name, low), number_of("the greatest " + name, high)
    if made[0] > made[1]:
        raise BadAnswer("the least %s is %d, above the greatest, %d" % (name, *made))
    return made


@dataclass(frozen=True)
class Box:
    """The arrays between `low` and `high`, as a space of Gymnasium has them."""

    low: np.ndarray
    high: np.ndarray

    @property
    def shape(self) -> Tuple[int, ...]:
        """The shape of an array of the space."""
        return tuple(self.low.shape)

    @property
    def dtype(self) -> np.dtype:
        """The type of the numbers."""
        return self.low.dtype

    def contains(self, value: Any) -> bool:
        """Whether an array is one of the space."""
        given = np.asarray(value, dtype=self.dtype)
        return given.shape == self.shape and bool(((self.low <= given) & (given <= self.high)).all())

    def sample(self, draw: np.random.Generator) -> np.ndarray:
        """An array of the space by chance."""
        return draw.uniform(self.low, self.high).astype(self.dtype)


class Env:
    """An environment over the cases of a scenario, each of which is an episode.

        env = Env(scenario, start=Change("p"), observe=("rtt", "cwnd"), act={"cwnd": (1448, 10**6)}, reward=power)
        observation, info = env.reset()
        observation, reward, terminated, truncated, info = env.step([14480])

    `start` is the first change of each flow, and the answer to a fault; or a function of the Create that gives it.
    `observe` are the numbers of an observation in their order: fields of the program by their names, `first`, `end`,
    `now` (microseconds), `cwnd` (bytes) and `rate` (bytes a second). A field that the program of a report doesn't have
    is 0. `act` are the numbers of an action in their order, each with its least and its greatest value: `cwnd`, `rate`,
    or a control variable. An action is rounded as a value of an Update is, and held between them. `reward` gets the
    report that answers an action, and the one before it or None.

    An episode is `truncated` where its case has no more acknowledgements: its last step has the observation of the last
    report and the reward 0, since nothing was reported of it. It never is `terminated`. After the last case `reset`
    begins the scenario anew. A flow that ends without a report has no episode.

    `info` has `case`, the number of `faults` of the episode so far, and the `report`. `recordings` are those of the
    scenario's runs that are over; `record` is a folder that gets each one as run-0.drive, run-1.drive and so on. The
    rest is as in Session."""

    def __init__(
        self,
        scenario: GivenScenario,
        *,
        start: Union[Change, Callable[[Create], Change]],
        observe: Sequence[str],
        act: Mapping[str, Tuple[float, float]],
        reward: Reward,
        program: Union[str, Path, None] = None,
        record: Union[str, Path, None] = None,
        timeout: Optional[float] = None,
    ) -> None:
        self._scenario = scenario_bytes(scenario)
        self._start = start
        self._observe, self._act, self._reward = tuple(observe), tuple(act), reward
        self._program, self._timeout = program, timeout
        self._record = None if record is None else Path(record)
        self._bounds = [bounds_of(name, *both) for name, both in act.items()]
        self._session: Optional[Session] = None
        self._create: Optional[Create] = None
        self._report: Optional[Report] = None
        self._observation = np.zeros(len(self._observe))
        self._faults = 0
        self.recordings: List[Driven] = []
        self.observation_space = Box(np.zeros(len(self._observe)), np.full(len(self._observe), float(MOST)))
        bounds = np.array(list(act.values()), dtype=float).reshape(len(self._act), 2)
        self.action_space = Box(bounds[:, 0].copy(), bounds[:, 1].copy())

    # ---- the form of Gymnasium

    def reset(self, *, seed: Optional[int] = None, options: Optional[Info] = None) -> Tuple[np.ndarray, Info]:
        """Begins the next episode, and returns its first observation. An episode that isn't over is run to its end
        first, with the answer "nothing". A run has no chance in it, so `seed` and `options` change nothing."""
        event, begun = self._between(), 0
        while not isinstance(event, Report):
            if isinstance(event, Create):
                self._create, self._report, self._faults = event, None, 0
                event = self._answered(self._begun(event))
            else:
                begun += 1
                if begun > 1:
                    raise CcpError("no flow of the scenario has made a report, so there is no episode")
                event = self._begun_session()
        return self._seen(event), self._info()

    def step(self, action: Sequence[float]) -> Tuple[np.ndarray, float, bool, bool, Info]:
        """Answers the last report by an action, and goes on to the next one."""
        before = self._report
        if before is None or self._session is None:
            raise CcpError("no episode is under way: env.reset() begins one")
        event = self._answered(Update(**self._values(action)))
        if not isinstance(event, Report):
            self._report = None
            return self._observation, 0.0, False, True, self._info(before)
        observation = self._seen(event)
        return observation, float(self._reward(event, before)), False, False, self._info()

    def close(self) -> None:
        """Ends the program. The recording of a run that isn't over isn't kept."""
        if self._session is not None:
            self._session.close()
            self._session = None
        self._report = None

    def __enter__(self) -> Env:
        return self

    def __exit__(self, *error: Any) -> None:
        self.close()

    # ---- between reports

    def _begun(self, create: Create) -> Change:
        """The first change of a flow."""
        return self._start if isinstance(self._start, Change) else self._start(create)

    def _begun_session(self) -> Optional[Event]:
        """Begins the scenario anew."""
        path = self._record and self._record / ("run-%d.drive" % len(self.recordings))
        self._session = Session(self._scenario, program=self._program, record=path, timeout=self._timeout)
        return self._session.start()

    def _between(self) -> Optional[Event]:
        """What waits once the present episode is over: the Create of the next one, or None."""
        if self._session is None:
            return None
        event = self._session.event
        while event is not None and not isinstance(event, Create):
            event = self._answered(None)
        return event

    def _answered(self, answer: Union[Change, Update, None]) -> Optional[Event]:
        """Answers, and returns the next thing that isn't a fault: a fault is answered by the first change, with the
        window as it is. At the end of a run its recording is kept."""
        assert self._session is not None
        event = self._session.answer(answer)
        while isinstance(event, Fault):
            self._faults += 1
            assert self._create is not None
            again = self._begun(self._create)
            event = self._session.answer(Change(again.program, cwnd=event.cwnd, rate=again.rate, **again.controls))
        if event is None:
            self._session.finish()
            self.recordings.append(Driven(self._session.recording, self._program))
            self._session = None
        return event

    def _values(self, action: Sequence[float]) -> Dict[str, int]:
        """The values of an action, held between their bounds."""
        if not hasattr(action, "__len__") or len(action) != len(self._act):
            raise CcpError("an action has %d numbers: %s" % (len(self._act), ", ".join(self._act)))
        made = {}
        for name, value, (low, high) in zip(self._act, action, self._bounds):
            made[name] = min(max(rounded(name, value), low), high)
        return made

    def _seen(self, report: Report) -> np.ndarray:
        """The observation of a report."""
        self._report = report
        fields = report.fields
        values = [getattr(report, name) if name in SEEN else fields.get(name, 0) for name in self._observe]
        self._observation = np.array(values, dtype=float)
        return self._observation

    def _info(self, report: Optional[Report] = None) -> Info:
        report = report or self._report
        return {"case": report.case if report else "", "faults": self._faults, "report": report}
