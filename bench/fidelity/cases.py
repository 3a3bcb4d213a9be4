"""The cases that each stack runs, and one run of a case."""

from __future__ import annotations

import itertools
from dataclasses import dataclass, replace
from pathlib import Path
from typing import Any, Dict, Iterable, List, Sequence, Tuple

import pandas as pd
from ccp_tools.errors import CcpError
from ccp_tools.losses import Loss

TOP = Path(__file__).resolve().parents[2]
TRACES = TOP / "examples" / "traces"
SEGMENT_BYTES = 1448
TIMEOUT_US = 1_000_000
# how long a host takes from an acknowledgement to a packet. In `ccp` that is no time, and chances and delays are whole
# milliseconds: a packet would leave with the chance of the millisecond in which its acknowledgement came. Those of a
# host come a little later, and wait for the next chance.
HOST_US = 50
ALGORITHMS = ("reno", "cubic")
# the senders of `ccp` whose order is compared
PAIRS = (("reno", "cubic"), ("linux-reno", "linux-cubic"))


@dataclass(frozen=True)
class Case:
    """A bulk flow of an algorithm, `reno` or `cubic`, over a link: a trace by its name or its file, a queue in packets,
    a round-trip time without waiting in milliseconds, and the segments that end it. The packets in `losses` are lost
    beside those of the queue, by their numbers from 0; where they were drawn, `rate` is the chance of each packet and
    `seed` that of the draw."""

    trace: str
    queue: int
    delay_ms: int
    algorithm: str
    segments: int = 30_000
    losses: Sequence[int] = ()
    rate: float = 0
    seed: int = 0

    @property
    def name(self) -> str:
        drawn = "-%g-s%d" % (self.rate, self.seed) if self.rate else ""
        return "%s-%d-%d-%s%s" % (Path(self.trace).stem, self.queue, self.delay_ms, self.algorithm, drawn)

    @property
    def cell(self) -> Any:
        """What cases of both algorithms have in common."""
        return self.trace, self.queue, self.delay_ms

    @property
    def trace_path(self) -> Path:
        """The file of the trace: the one of this name in examples/traces, else the one of this path."""
        named = TRACES / (self.trace + ".trace")
        return named if named.is_file() else Path(self.trace)

    def scenario_case(self, sender: str) -> Dict[str, Any]:
        """The members of this case that the figures of `ccp_tools.metrics` are computed with."""
        made = {"name": self.name, "trace": self.trace, "sender": sender, "mss": SEGMENT_BYTES, "queue": self.queue}
        return {**made, "delay_us": 1000 * self.delay_ms, "timeout_us": TIMEOUT_US, "acks": self.segments}

    def model_case(self, sender: str) -> Dict[str, Any]:
        """The same of a run in `ccp`, which has the time of a host as a part of the delay."""
        made = self.scenario_case(sender)
        return {**made, "delay_us": made["delay_us"] + HOST_US}


@dataclass(frozen=True)
class Outcome:
    """What a run of a case gave. `acks` has a row for each packet that the link served, with the columns of
    `ccp_tools.frames.AckFrame`, and `windows` the congestion window over time: `seconds`, and `segments`. `notes` are
    columns of the results that only one stack has."""

    case: Case
    stack: str
    sender: str
    acks: pd.DataFrame
    windows: pd.DataFrame
    run: int = 1
    notes: Dict[str, Any] | None = None


@dataclass(frozen=True)
class Group:
    """Bulk flows, each with its algorithm and its delay in milliseconds, that share a link for some seconds."""

    flows: Tuple[Tuple[str, int], ...]
    trace: str = "fixed"
    queue: int = 100
    seconds: int = 50

    @property
    def name(self) -> str:
        return "-".join("%s%d" % flow for flow in self.flows)

    @property
    def trace_path(self) -> Path:
        return TRACES / (self.trace + ".trace")


def grid(
    traces: Iterable[str],
    queues: Iterable[int],
    delays_ms: Iterable[int],
    algorithms: Iterable[str],
    segments: int,
    losses: Sequence[int] = (),
) -> List[Case]:
    """The cases of a grid, the algorithm varying fastest. A trace that isn't there is a CcpError."""
    axes = itertools.product(traces, queues, delays_ms, algorithms)
    made = [Case(*values, segments=segments, losses=tuple(losses)) for values in axes]
    for case in made:
        if not case.trace_path.is_file():
            raise CcpError("%s: there is no such trace in examples/traces, and no such file" % case.trace)
    return made


def by_chance(cases: Iterable[Case], rates: Iterable[float], seeds: Iterable[int]) -> List[Case]:
    """The cases with each rate and seed of losses by chance. Equal seeds lose equal packets in all of them, and a
    packet that is sent again counts anew."""
    found = []
    for case, rate, seed in itertools.product(cases, rates, seeds):
        losses = Loss("rate:%g" % rate, (), [rate]).drawn(seed, 2 * case.segments)
        found.append(replace(case, losses=tuple(losses), rate=rate, seed=seed))
    return found
