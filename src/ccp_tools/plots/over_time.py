"""Flows over time: throughput, window and round-trip time."""

from __future__ import annotations

import math
from typing import Any, List, Mapping, Sequence

import numpy as np
from matplotlib.axes import Axes
from matplotlib.figure import Figure

from .. import metrics
from ..frames import AckFrame, Timeline
from ..metrics import Link
from ..shares import window_us
from . import pages
from .packets import known_case
from .pages import MOST_SENDERS, Look, chunks, line_look
from .series import Line, Series, series_of

LABELS = {"throughput": "throughput [Mbit/s]", "window": "window [segments]", "trip": "round-trip time [ms]"}
MARKS = ("loss", "mark", "timeout", "change", "fault")
STROKE: Mapping[str, Any] = {"linestyle": "-", "marker": "", "linewidth": 1.3, "solid_capstyle": "butt"}


def flows(
    timeline: Timeline,
    numbers: Sequence[int] | None = None,
    scenario: Mapping[str, Any] | None = None,
    acks: Mapping[int, AckFrame] | None = None,
    look: Look = Look(),
    until_s: float | None = None,
) -> List[Figure]:
    """The pages of flows over time, at most eight flows on each."""
    own = {case["name"]: case for case in scenario["cases"]} if scenario else {}
    ends = timeline.ends if numbers is None else timeline.ends[timeline.ends["flow"].isin(numbers)]
    known = acks or {}
    ends = ends[(ends["reports"] > 0) | ends["flow"].isin(list(known))]
    last = [int(flow.frame["now"].max()) for flow in known.values() if len(flow.frame)]
    # windows shorter than a round trip would show the bursts of slow start
    length = window_us(max([1, *last, *(250 * case["delay_us"] for case in own.values())]))
    made = []
    for part in chunks(list(ends.itertuples()), MOST_SENDERS):
        cases = [known_case(own, one.case) if scenario else None for one in part]
        names = [metrics.own_of(case)["sender"] if case else one.case for one, case in zip(part, cases)]
        if len(set(names)) < len(names):
            names = [one.case for one in part]
        found = [
            series_of(timeline, case, one.flow, name, known.get(one.flow), length)
            for one, case, name in zip(part, cases, names)
        ]
        traces = {(case["trace"], case["mss"]) for case in cases if case}
        link = Link(scenario) if scenario and len(traces) == 1 else None
        made.append(flow_page(found, link, next(iter(traces), ("", 0))[0], length if known else 0, look, until_s))
    return made


def flow_page(
    found: List[Series], link: Link | None, trace: str, length: int, look: Look, until_s: float | None
) -> Figure:
    """A page of flows over time up to `until_s` seconds. `length` is that of windows of time in microseconds, or 0
    where the values are those of reports."""
    end = min(max([series.end for series in found] + [0.001]), until_s or math.inf)
    rows = [kind for kind in MARKS if any(len(series.marks.get(kind, ())) for series in found)]
    shown = [name for name in LABELS if any(np.isfinite(series.lines[name][1]).any() for series in found)]
    legend = pages.line_keys([series.name for series in found])
    if link and "throughput" in shown:
        legend["link"] = pages.link_key()
    heights = [9.5] * len(shown) + ([0.6 + 1.3 * len(rows)] if rows else [])
    figure, panels = pages.page(look, legend, heights, sharex=True)
    for panel, name in zip(panels, shown):
        everything = np.concatenate([series.lines[name][1] for series in found])
        if name == "throughput" and link:
            edges, behind = capacity_of(link, trace, found[0].mss, end, length or window_us(end * 1e6))
            panel.stairs(behind, edges, fill=True, color=pages.GREY, linewidth=0)
            everything = np.concatenate([everything, behind])
        everything = everything[np.isfinite(everything)]
        draw_lines(panel, [series.lines[name] for series in found], end)
        panel.set_ylabel(LABELS[name] if name != "window" or found[0].mss else "window [kB]")
        if name == "trip":
            pages.from_zero(panel, "y", everything)
        else:
            panel.set_ylim(0, 1.08 * everything.max(initial=0) or 1)
    if rows:
        draw_marks(panels[-1], found, rows)
    panels[-1].set(xlabel="virtual time [s]", xlim=(0, end))
    return figure


def capacity_of(link: Link, trace: str, mss: int, end: float, length: int) -> Line:
    """The edges of windows of time, in seconds, and the link's capacity in each, in Mbit/s."""
    edges = np.arange(0, int(end * 1e6) + length + 1, length)
    counts = np.array([link.chances(trace, int(edge)) for edge in edges])
    return edges / 1e6, 8 * mss * np.diff(counts) / length


def draw_lines(panel: Axes, lines: Sequence[Line], end: float) -> None:
    """A step line for each sender with about ten marks on it, each line's at other times, so that none hides
    another's."""
    for at, (times, values) in enumerate(lines):
        wanted = (np.arange(10) + (at + 0.5) / len(lines)) * end / 10
        wanted = wanted[(wanted >= times.min(initial=end)) & (wanted <= times.max(initial=0))]
        places = np.searchsorted(times, wanted, "right") - 1
        panel.plot(times, values, drawstyle="steps-post", **{**line_look(at), "marker": ""})
        panel.plot(wanted, values[places], **{**line_look(at), "linestyle": ""})


def draw_marks(panel: Axes, found: List[Series], rows: List[str]) -> None:
    """A strip with a row for each kind of mark: what happened when, the flows one below the other within a row."""
    tall = 0.8 / len(found)
    for row, kind in enumerate(reversed(rows)):
        for at, series in enumerate(found):
            times = np.unique(np.round(series.marks.get(kind, np.zeros(0)), 3))
            middle = row + 0.4 - (at + 0.5) * tall
            ends = (middle - 0.42 * tall, middle + 0.42 * tall)
            # one line with a break after each stroke, since a collection takes longer to draw and is a larger file
            across, up = np.repeat(times, 3), np.tile([*ends, np.nan], len(times))
            panel.plot(across, up, color=line_look(at)["color"], **STROKE)
    panel.grid(False)
    panel.set(yticks=range(len(rows)), yticklabels=rows[::-1], ylim=(-0.6, len(rows) - 0.4))
