"""What is plotted of flows over time: lines of throughput, window and round-trip time, and times of marks."""

from __future__ import annotations

from dataclasses import dataclass
from typing import Any, Dict, Tuple

import numpy as np
import pandas as pd

from ..frames import AckFrame, Timeline
from .packets import trips_of

# times in seconds, and values that hold from each on; nan where a line breaks
Line = Tuple[np.ndarray, np.ndarray]
ACK_MARKS = {"loss": "lost_pkts_sample", "mark": "ecn_packets", "timeout": "was_timeout"}
REPORT_MARKS = {"loss": ("loss", "lost"), "mark": ("ecn", "marked"), "timeout": ("timeout", "timeouts")}


@dataclass
class Series:
    """A flow's lines and marks by name. `mss` is in bytes, 0 where it isn't known, and `end` in seconds."""

    name: str
    mss: int
    lines: Dict[str, Line]
    marks: Dict[str, np.ndarray]
    end: float


def steps(edges: np.ndarray, values: np.ndarray) -> Line:
    """The line of values between edges."""
    return edges, np.append(values, values[-1:])


def column(reports: pd.DataFrame, *names: str) -> np.ndarray:
    """The first of these fields that the reports have, with nan where they have none."""
    for name in names:
        if "field_" + name in reports and reports["field_" + name].notna().any():
            return reports["field_" + name].to_numpy(dtype=float)
    return np.full(len(reports), np.nan)


def breaks_in(reports: pd.DataFrame) -> np.ndarray:
    """For each report whether lines break before it: where reports were held, so that a span doesn't begin at the end
    of the one before, and where a report took more than two round trips, and far more than the one before and than
    most."""
    now, first = reports["now"].to_numpy(dtype=float), reports["first"].to_numpy()
    held = first != np.concatenate([[0], reports["end"].to_numpy()[:-1]])
    trips = column(reports, "rtt")
    known = trips[trips > 0]
    gaps = np.diff(now)
    if not len(gaps):
        return held
    least = 2 * float(np.median(known)) if len(known) else 50_000.0
    before = np.concatenate([[0], gaps[:-1]])
    return held | np.concatenate([[False], gaps > np.maximum(np.maximum(4 * np.median(gaps), 4 * before), least)])


def with_breaks(times: np.ndarray, values: np.ndarray, breaks: np.ndarray) -> Line:
    """Times and values with nan at the time before each break, so that no step reaches over it."""
    places = np.flatnonzero(breaks)
    before = times[np.maximum(places - 1, 0)]
    return np.insert(times, places, before), np.insert(values.astype(float), places, np.nan)


def window_line(reports: pd.DataFrame, first: float, unit: float, ack_times: np.ndarray) -> Line:
    """The window at first, at each report, and after the answer to it: at the time of the acknowledgement that it came
    at, or where no acknowledgements are given at that of the report."""
    now = reports["now"].to_numpy(dtype=float) / 1e6
    times, values = [0.0], [first / unit]
    breaks = breaks_in(reports) if len(reports) else np.zeros(0, bool)
    replies = reports["reply_window"].to_numpy(dtype=float) if "reply_window" in reports else np.full(len(now), np.nan)
    for at, (time, cwnd, answered, reply) in enumerate(zip(now, reports["cwnd"], reports["answered"], replies)):
        if breaks[at]:
            times.append(times[-1])
            values.append(np.nan)
        times.append(time)
        values.append(cwnd / unit)
        if reply == reply:
            times.append(ack_times[int(answered) - 1] if 0 < answered <= len(ack_times) else time)
            values.append(reply / unit)
    return np.array(times), np.array(values)


def is_change(reports: pd.DataFrame) -> np.ndarray:
    """For each report whether the agent changed the program in its answer."""
    return (reports["reply"] == "change").to_numpy() if "reply" in reports else np.zeros(len(reports), bool)


def series_of(timeline: Timeline, case: Any, number: int, name: str, acks: AckFrame | None, length: int) -> Series:
    """The series of a flow: of its acknowledgements where they are given, in windows of `length` microseconds, else of
    its reports."""
    reports = timeline.reports[timeline.reports["flow"] == number]
    first = timeline.epochs[timeline.epochs["flow"] == number]["cwnd"].iloc[0]
    mss, unit = (case["mss"], case["mss"] / case.get("aggregate", 1)) if case else (0, 1000)
    times = acks.frame["now"].to_numpy() / 1e6 if acks else np.zeros(0)
    lines = {"window": window_line(reports, first, unit, times)}
    if acks is None:
        lines, marks = of_reports(reports, lines)
        return Series(name, mss, lines, marks, float(max(reports["now"], default=0) / 1e6))
    faults = timeline.faults[timeline.faults["flow"] == number]["ack"].to_numpy(dtype=int)
    answered = reports["answered"].to_numpy()[is_change(reports)].astype(int)
    marks = {kind: times[acks.frame[of].to_numpy() > 0] for kind, of in ACK_MARKS.items()}
    marks["change"] = times[answered[(answered > 0) & (answered <= len(times))] - 1]
    marks["fault"] = times[faults[faults < len(times)]]
    end = float(times[-1]) if len(times) else 0.0
    edges = np.arange(0, end * 1e6 + length, length) / 1e6
    rates = np.histogram(times, edges, weights=acks.frame["bytes_acked"].to_numpy().astype(float))[0] * 8 / length
    if len(rates) > 1:
        rates[-1] = rates[-2]  # the last window isn't whole
    when, trips = trips_of(acks)
    counts, sums = np.histogram(when, edges)[0], np.histogram(when, edges, weights=trips)[0]
    lines["throughput"] = steps(edges, rates)
    lines["trip"] = steps(edges, np.where(counts > 0, sums / np.maximum(counts, 1), np.nan))
    return Series(name, mss, lines, marks, end)


def of_reports(reports: pd.DataFrame, lines: Dict[str, Line]) -> Tuple[Dict[str, Line], Dict[str, np.ndarray]]:
    """The lines and marks of reports. A throughput is that of a report's span; of a report after held ones it isn't
    known when its span began."""
    now, breaks = reports["now"].to_numpy(dtype=float), breaks_in(reports)
    trips, got = column(reports, "rtt") / 1e3, column(reports, "acked", "delivered")
    edges = np.concatenate([[0], now])
    spans = np.diff(edges)
    rates = np.where(breaks | (spans <= 0), np.nan, 8 * got / np.where(spans > 0, spans, 1))
    marks = {kind: now[np.nan_to_num(column(reports, *names)) > 0] / 1e6 for kind, names in REPORT_MARKS.items()}
    marks["change"] = now[is_change(reports)] / 1e6
    trip = with_breaks(now / 1e6, np.where(trips > 0, trips, np.nan), breaks)
    return {**lines, "throughput": steps(edges / 1e6, rates), "trip": trip}, marks
