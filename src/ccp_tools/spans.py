"""What counts of a case mean over a window of time: its span, the link's chances in it, and the figures that need no
single acknowledgement. Without pandas, whose import takes half a second."""
from __future__ import annotations

import functools
from dataclasses import dataclass
from typing import Any, Dict, Mapping, Tuple

from .traces import Trace, trace_times


@dataclass(frozen=True)
class Window:
    """The virtual time over which figures are computed: after `begin_us` (from the beginning where it is 0), up to
    `until_us`, or to a case's end where that is None. Both in microseconds."""

    begin_us: int = 0
    until_us: int | None = None


@dataclass(frozen=True)
class SharedRun:
    """A run of flows on one link: the link's trace, when its last round ends, in microseconds, and the numbers of the
    line `link`."""

    trace: str
    end_us: int
    packets: Mapping[str, int]


@functools.lru_cache(maxsize=64)
def trace_of(text: str, place: str) -> Trace:
    """The trace of a text, which each plot of a comparison asks for anew. A CcpError at `place` where it is none."""
    return Trace(trace_times(text, place))


class Link:
    """What packets could use: the chances of the traces of a scenario."""

    def __init__(self, scenario: Mapping[str, Any]) -> None:
        self.scenario = scenario
        self.kept: Dict[str, Trace] = {}

    def trace(self, name: str) -> Trace:
        """A trace of the scenario by its name; a CcpError where its text is none."""
        if name not in self.kept:
            self.kept[name] = trace_of(self.scenario["traces"][name], "trace " + name)
        return self.kept[name]

    def chances(self, name: str, until_us: int, begin_us: int = 0) -> int:
        """The chances after `begin_us` (from the beginning where it is 0), and at or before `until_us`."""
        before = self.trace(name).chances(begin_us) if begin_us else 0
        return self.trace(name).chances(until_us) - before


def divided(a: float, b: float) -> float | None:
    """The quotient, or None where the divisor is 0."""
    return a / b if b else None


def of_counts(span_us: int, chances: int, packets: int, lost: int, timeouts: int, acked: int) -> Dict[str, Any]:
    """The figures that the table and the acknowledgements both give."""
    return {
        "packets": packets,
        "lost": lost,
        "timeouts": timeouts,
        "span_s": span_us / 1e6,
        "throughput_mbps": divided(8 * acked, span_us),
        "utilization": divided(packets, chances),
        "loss_rate": divided(lost, packets + lost),
    }


def bounds_of(
    case: Mapping[str, Any], end_us: int, window: Window, run: SharedRun | None = None
) -> Tuple[int, int, int]:
    """Three times in microseconds: what counts comes after the first, or from the beginning where it is 0, and at or
    before the second; the third is the span from one to the other. `end_us` is that of the case's acknowledgements."""
    if run is None:
        until_us = end_us if window.until_us is None else min(window.until_us, end_us)
        return window.begin_us, until_us, until_us - window.begin_us
    start_us = int(case.get("start_us", 0))
    until_us = run.end_us if window.until_us is None else min(window.until_us, run.end_us)
    # a chance at the start may serve the flow, and one at the end of the last round serves none
    after_us, upto_us = max(window.begin_us, start_us - 1), min(until_us, run.end_us - 1)
    return after_us, upto_us, max(0, until_us - max(window.begin_us, start_us))
