"""Real senders beside the simulated ones: their throughput and delay from link logs of Mahimahi or Pantheon."""

from __future__ import annotations

import argparse
from dataclasses import dataclass
from pathlib import Path
from typing import Any, Dict, List, Mapping, Sequence, Tuple

from ..arguments import is_name
from ..link_logs import Measured, measured_of, read_log, times_of
from ..metrics import Window
from .report import TABLE, Row

# a span that differs by at most this share counts as the same: a log's begins with its first packet
SAME_SPAN = 0.1


@dataclass(frozen=True)
class RealSender:
    """What a sender had on a real or emulated link. `trace` is the scenario's trace that the link followed, or "" where
    it is none of them. `simulated_s` is over how many seconds the simulated senders are measured on it, or None."""

    name: str
    trace: str
    found: Measured
    simulated_s: float | None = None

    def doubts(self) -> str:
        """Why its figures aren't those of the same seconds of the link, or nothing."""
        own, other = self.found.seconds, self.simulated_s
        if other is None or abs(own - other) <= SAME_SPAN * other:
            return ""
        return "its log has %.3g s of packets, and the simulated senders are measured over %.3g s" % (own, other)


def named_log(text: str) -> Tuple[str, str]:
    """The name and the file of [NAME=]LOG. Without a name it is that of the file, without its ending."""
    name, is_there, path = text.partition("=")
    if not is_there:
        return Path(text).stem, text
    if not path or not is_name(name):
        raise argparse.ArgumentTypeError("%s: [NAME=]LOG is expected, with letters, digits, _, - and . in NAME" % text)
    return name, path


def add_arguments(parser: argparse._ActionsContainer) -> None:
    """Adds --measured, a list of names and files."""
    what = "a real sender's link log of Mahimahi or Pantheon, whose figures come beside (again for another one)"
    parser.add_argument("--measured", type=named_log, action="append", default=[], metavar="[NAME=]LOG", help=what)


def read(
    logs: Sequence[Tuple[str, str]], recorded: Mapping[str, Sequence[int]], windows: Mapping[str, Window]
) -> List[RealSender]:
    """What the senders of logs had, up to the end of the measured span of their trace. A log belongs to the trace whose
    chances it has, or to the only trace of the comparison; `recorded` are their times. What is no log is a CcpError."""
    made = []
    for name, path in logs:
        log = read_log(path)
        trace = trace_of(times_of(log), recorded)
        window = windows[trace] if trace else Window()
        until_s = None if window.until_us is None else window.until_us / 1e6
        simulated_s = None if until_s is None else until_s - window.begin_us / 1e6
        made.append(RealSender(name, trace, measured_of(log, until_s=until_s), simulated_s))
    return made


def trace_of(times: Sequence[int], recorded: Mapping[str, Sequence[int]]) -> str:
    """The trace that a link with chances at these times followed, or the only one that there is; "" where neither is
    known."""
    for name, known in recorded.items():
        laps = len(times) // len(known) + 1 if times else 0
        if laps and list(times) == [lap * known[-1] + time for lap in range(laps) for time in known][: len(times)]:
            return name
    return next(iter(recorded)) if len(recorded) == 1 else ""


def rows_of(senders: Sequence[RealSender], by: Sequence[str]) -> List[Row]:
    """The rows of the comparison's table. What a log doesn't say is none."""
    made = []
    for one in senders:
        figures: Dict[str, float | None] = {**one.found.figures(), "span_s": one.found.seconds}
        place: Dict[str, Any] = {name: "none" for name in by}
        place.update(trace=(one.trace + ", measured").lstrip(", "), sender=one.name)
        made.append(Row(place, {name: (figures.get(name), None) for name in TABLE}, one.doubts()))
    return made


def notes_of(senders: Sequence[RealSender]) -> List[str]:
    """What the report says of each log."""
    made = []
    for one in senders:
        text = "%s: %s, %d packets" % (one.name, one.found.path, one.found.packets)
        if not one.found.delay_is_queueing:
            delays = (one.found.delay_mean_ms, one.found.delay_p95_ms)
            text += "; its delays are of the whole way, mean %.1f ms and p95 %.1f ms" % delays
        made.append(text)
    return made
