"""Writes the figures of each case of a scenario: throughput, utilization, loss, delay, window, power, fairness.

    ccp metrics SCENARIO TEXT.. [--until S] [--from S] [--window-ms W] [--by COLUMNS] [--columns COLUMNS]
                                [--format csv|json|parquet]
    ccp metrics SCENARIO --means [--until S] [--from S] [--by COLUMNS] ..
    ccp metrics SCENARIO --orders all|N [--changes N] [--by COLUMNS] ..

    ccp campaign scenario.json > table.txt
    ccp acks scenario.json > acks.txt
    ccp metrics scenario.json table.txt acks.txt > metrics.csv
    ccp metrics scenario.json table.txt acks.txt --by trace,sender,queue

A TEXT is what `campaign`, `timeline` or `acks`, or of flows on one link `shared`, `shared-timeline` or `shared-acks`,
printed of the scenario; it is recognized by its beginning, and `-` is standard input. There is a line for each case,
with the scenario's own columns first, then the figures. A figure whose text isn't given is empty. Texts of different
runs, or of another scenario, are errors.

--until S computes every figure of the acknowledgements over the first S seconds of virtual time, so that cases of
different lengths are comparable; --from S leaves out what came before, as slow start. --by groups cases by columns: for
each combination of their values and each figure it writes the number of cases that have it, their mean, their standard
deviation, and half of the 95 % interval of the mean by Student's t. --columns selects columns, and with --by figures.

--means runs a scenario of any number of cases itself, and writes the figures that counts and means are enough for,
about 16 times as fast as from acknowledgements: its programs measure themselves. Percentiles, the window and the
first loss stay empty.

    ccp metrics scenario.json --means --until 10 --by sender --columns throughput_mbps,queueing_mean_ms

--orders runs a scenario of `shared` itself, in all orders of its flows or in N of them, and with --changes N each order
with N small changes: the queue by up to three packets, each delay by up to 3 ms. A line is that of a flow in a run, and
`--by sender` gives mean shares:

    ccp scenario --for shared --shared fixed:100:5 --seconds 50 examples/traces/fixed.trace > two.json
    ccp metrics two.json --orders all --changes 10 --by sender --columns share

A loss rate is that of slow start where most packets are lost in the first 5 s: `slow_start_loss_share` has the share,
and a line on standard error names such cases.

A case with a fault, without a report, with a window that never moved, with held reports, or whose own program was
changed by its agent has the reason in the column `doubts` and on standard error: its figures may not be those of the
sender that you mean. docs/metrics.md defines each figure by its formula, its unit and its source."""

from __future__ import annotations

import argparse
import io
import json
import math
import sys
from contextlib import contextmanager
from dataclasses import asdict, dataclass
from pathlib import Path
from typing import IO, Any, Dict, Iterable, Iterator, List, Mapping, Sequence, Tuple

import numpy as np
import pandas as pd

from . import orders, probe, shares, slow_start, texts
from .arguments import add_ccp, list_of, warn, whole
from .errors import BadText, CcpError, UsageError
from .files import MOST_BYTES, Begun, checked_length, name_of, reason_of
from .frames import AckFrame, Timeline, acks_in, joined, timeline_of
from .scenario_files import read_run_scenario
from .shares import jain
from .spans import Link, SharedRun, Window, bounds_of, divided, of_counts

OWN = "case trace sender agent ss ca mss queue delay_ms timeout_ms slots lag mark loss rate seed".split()
READ = {"name", "delay_us", "timeout_us", "acks", "losses", "cwnd", "steps"}
COUNTS = "packets lost timeouts reports held faults epochs".split()
FIGURES = (
    "end_s span_s throughput_mbps utilization loss_rate queueing_mean_ms queueing_p50_ms queueing_p95_ms "
    "queueing_p99_ms rtt_mean_ms power first_loss_s slow_start_loss_share window_mean_bytes share jain "
    "jain_windows fair_after_s link_utilization link_loss_rate"
).split()
METRICS = COUNTS + FIGURES
PERCENTILES = (50, 95, 99)
# a smaller value is shown with an exponent
MOST_DECIMALS = 7
# spans that differ by more than this share aren't those of one measurement
SAME_SPAN = 0.01


@dataclass(frozen=True)
class Figure:
    """How a figure is shown: its name with the unit, the factor from METRICS to this unit, its decimals, and whether
    more of it is better."""

    label: str
    factor: float = 1
    decimals: int = 2
    is_more: bool = False

    def text(self, value: float, half: float | None = None) -> str:
        """A value as tables show it, with half of its interval: at least three significant digits, also of a small one,
        and 0 where nothing is rounded."""
        mean, spread = value * self.factor, (half or 0) * self.factor
        size = max(abs(mean), 0.0) or abs(spread)
        if not size or size != size:
            return "0" if half is None else "0 ±0"
        decimals = max(self.decimals, 2 - math.floor(math.log10(size)))
        if decimals > MOST_DECIMALS:
            return "%.2e" % mean if half is None else "%.2e ±%.2e" % (mean, spread)
        text = "%.*f" % (decimals, mean) if mean else "0"
        return text if half is None else "%s ±%s" % (text, "%.*f" % (decimals, spread) if spread else "0")


SHOWN: Dict[str, Figure] = {
    "throughput_mbps": Figure("throughput [Mbit/s]", 1, 2, True),
    "utilization": Figure("utilization [%]", 100, 1, True),
    "loss_rate": Figure("lost packets [%]", 100, 2),
    "queueing_mean_ms": Figure("queueing delay, mean [ms]", 1, 1),
    "queueing_p50_ms": Figure("queueing delay, p50 [ms]", 1, 1),
    "queueing_p95_ms": Figure("queueing delay, p95 [ms]", 1, 1),
    "queueing_p99_ms": Figure("queueing delay, p99 [ms]", 1, 1),
    "rtt_mean_ms": Figure("mean round-trip time [ms]", 1, 1),
    "window_mean_bytes": Figure("mean window [kB]", 0.001, 1, True),
    "power": Figure("power [Mbit/s per ms]", 1, 3, True),
    "first_loss_s": Figure("first loss [s]", 1, 2, True),
    "slow_start_loss_share": Figure("losses of slow start [%]", 100, 0),
    "end_s": Figure("last acknowledgement [s]", 1, 2, True),
    "span_s": Figure("measured span [s]", 1, 2, True),
    "share": Figure("share [%]", 100, 1, True),
    "jain": Figure("Jain's index", 1, 3, True),
    "jain_windows": Figure("Jain's index, mean of windows", 1, 3, True),
    "fair_after_s": Figure("time to the fair share [s]", 1, 2),
}


# ---- the scenario's own columns


def own_of(case: Mapping[str, Any]) -> Dict[str, Any]:
    """The columns of a case that are in the scenario."""
    parts = [case.get("agent"), case.get("ss"), case.get("ca")]
    made = {
        "case": case["name"],
        "trace": case["trace"],
        "sender": ".".join(dict.fromkeys(str(part) for part in parts if part)),
        "delay_ms": case["delay_us"] / 1000,
        "timeout_ms": case["timeout_us"] / 1000,
        "slots": 4,
        "lag": 0,
        "loss": "listed" if case.get("losses") else "none",
    }
    for name, value in case.items():
        if name not in READ and isinstance(value, (str, int, float)):
            # a member beside with the name of a figure gets a name of its own
            made["case_" + name if name in METRICS or name in ("case", "doubts") else name] = value
    return made


def columns_of(scenario: Mapping[str, Any], path: str = "scenario") -> Tuple[List[str], List[Dict[str, Any]]]:
    """The names of the scenario's columns, and these columns of each case."""
    try:
        found = [own_of(case) for case in scenario["cases"]]
    except (KeyError, TypeError, AttributeError) as error:
        raise CcpError("%s: no scenario of ccp: %s is missing or of another kind" % (path, error)) from None
    beside = dict.fromkeys(name for own in found for name in own if name not in OWN)
    return OWN + list(beside), found


# ---- the figures


def whole_counts(frame: pd.DataFrame) -> Dict[str, int]:
    """The counts of a case's acknowledgements that the table has too."""
    return {
        "acks": len(frame),
        "lost": int(frame["lost_pkts_sample"].sum()),
        "timeouts": int(frame["was_timeout"].sum()),
        "acked": int(frame["bytes_acked"].sum()),
        "now": int(frame["now"].iloc[-1]) if len(frame) else 0,
    }


def figures_of_acks(
    case: Mapping[str, Any],
    frame: pd.DataFrame,
    link: Link,
    window: Window = Window(),
    run: SharedRun | None = None,
) -> Dict[str, Any]:
    """The figures of a case's acknowledgements, as frames.AckFrame has them, over a window of time. Where the case ends
    before the window does, the window ends with it; with `run` it ends with the run, and begins with the flow."""
    end_us = int(frame["now"].iloc[-1]) if len(frame) else 0
    after_us, upto_us, span_us = bounds_of(case, end_us, window, run)
    made: Dict[str, Any] = {"end_s": end_us / 1e6}
    if upto_us <= after_us and after_us:
        return made
    inside = inside_of(frame, after_us, upto_us)
    counts = whole_counts(inside)
    packets = counts["acks"] - counts["timeouts"]
    chances = link.chances(run.trace if run else case["trace"], upto_us, after_us)
    made.update(of_counts(span_us, chances, packets, counts["lost"], counts["timeouts"], counts["acked"]))
    losses = inside["now"].to_numpy()[inside["lost_pkts_sample"].to_numpy() > 0]
    made["first_loss_s"] = float(losses[0]) / 1e6 if len(losses) else None
    made[slow_start.FIGURE] = slow_start.of_acks(case, inside)
    made.update(delays_of(inside, int(case["delay_us"])))
    if made.get("rtt_mean_ms"):
        made["power"] = (made["throughput_mbps"] or 0) / made["rtt_mean_ms"]
    return made


def inside_of(frame: pd.DataFrame, after_us: int, upto_us: int) -> pd.DataFrame:
    """The acknowledgements after a time, or from the beginning where it is 0, and up to another."""
    now = frame["now"].to_numpy()
    first = int(np.searchsorted(now, after_us, "right")) if after_us else 0
    return frame.iloc[first : int(np.searchsorted(now, upto_us, "right"))]


def delays_of(frame: pd.DataFrame, delay_us: int) -> Dict[str, float]:
    """The figures of the round-trip times of acknowledged packets."""
    trips = frame["rtt_sample_us"].to_numpy()[frame["packets_acked"].to_numpy() > 0].astype(np.int64)
    if not len(trips):
        return {}
    made = {"rtt_mean_ms": float(trips.sum()) / len(trips) / 1e3}
    made["queueing_mean_ms"] = float(trips.sum() - delay_us * len(trips)) / len(trips) / 1e3
    ranked = np.percentile(trips, PERCENTILES, method="inverted_cdf")  # nearest rank
    made.update(
        ("queueing_p%d_ms" % percent, float(value - delay_us) / 1e3) for percent, value in zip(PERCENTILES, ranked)
    )
    return made


def mean_window(reports: pd.DataFrame, window: Window = Window()) -> float | None:
    """The mean window over the reports of a flow, in bytes: a report's window counts from the report before, within the
    window of time. None where there is no report in it."""
    ends = reports["now"].to_numpy().astype(np.int64)
    spans = np.diff(np.clip(np.concatenate([[0], ends]), window.begin_us, window.until_us))
    total = spans.sum()
    return float((reports["cwnd"].to_numpy().astype(float) * spans).sum() / total) if total else None


def shared_run(scenario: Mapping[str, Any], packets: Mapping[str, int] | None) -> SharedRun | None:
    """The run of flows on one link whose line `link` has these numbers; None where there is no such line."""
    if packets is None:
        return None
    shared = scenario.get("shared")
    if not shared:
        raise CcpError("a text is one of `shared`, and the scenario has no member shared")
    return SharedRun(shared["trace"], packets["rounds"] * shared["quantum_us"], packets)


def figures_of_table(
    table: texts.Table, scenario: Mapping[str, Any], link: Link, run: SharedRun | None
) -> List[Dict[str, Any]]:
    """The figures of each row of a table. Over a shared link the span of each flow is that of the run from its start
    on."""
    found = shared_figures([row["acked"] for row in table.rows], run, link) if run else [{} for _ in table.rows]
    for made, row, case in zip(found, table.rows, scenario["cases"]):
        after_us, upto_us, span_us = bounds_of(case, row["now"], Window(), run)
        chances = link.chances(run.trace if run else case["trace"], upto_us, after_us)
        made["end_s"] = row["now"] / 1e6
        made.update(
            of_counts(span_us, chances, row["acks"] - row["timeouts"], row["lost"], row["timeouts"], row["acked"])
        )
        made[slow_start.FIGURE] = slow_start.of_table(case, span_us, row["lost"])
        made.update((name, row[name]) for name in ("reports", "held", "faults", "epochs"))
    return found


def shared_figures(acked: Sequence[int], run: SharedRun, link: Link) -> List[Dict[str, Any]]:
    """The figures of each flow that only a shared link has; `acked` are the bytes that each got."""
    lost, served = run.packets["lost"], run.packets["acked"]
    of_all = {
        "jain": jain(acked),
        "link_utilization": divided(served, link.chances(run.trace, run.end_us - 1)),
        "link_loss_rate": divided(lost, served + lost),
    }
    return [{**of_all, "share": divided(part, sum(acked))} for part in acked]


def figures(
    scenario: Mapping[str, Any],
    *,
    table: texts.Table | None = None,
    timeline: Timeline | None = None,
    acks: Iterable[AckFrame] | None = None,
    window: Window | Mapping[str, Window] = Window(),
    answered: Iterable[str] = (),
    shared_link: Mapping[str, int] | None = None,
    length_us: int | None = None,
) -> pd.DataFrame:
    """The figures of each case of a scenario, a row a case: the scenario's columns, METRICS and `doubts`.

    Each source is optional; without `acks` a window of time is a CcpError. `window` is that of all cases, or maps a
    trace to that of its cases. `answered` names senders whose agent is meant
    to change their program. `shared_link` are the numbers of the line `link` where the acknowledgements and the
    timeline are of flows on one link, and `length_us` is the length of windows of time, for Jain's index and the time
    to the fair share (shares.window_us has the one without it). Units are in the columns' names, shares are from 0
    to 1. Errors: CcpError, where the sources are of different runs or of another scenario."""
    names, own = columns_of(scenario)
    cases, link = scenario["cases"], Link(scenario)
    windows = [window if isinstance(window, Window) else window[case["trace"]] for case in cases]
    if any(one != Window() for one in windows) and acks is None:
        raise CcpError("a window of time needs the acknowledgements, as `acks` prints them")
    found: List[Dict[str, Any]] = [{} for _ in cases]
    run = shared_run(scenario, table.link if table and table.link else shared_link)
    if table:
        check_cases(scenario, [row["case"] for row in table.rows], "the table")
        found = figures_of_table(table, scenario, link, run)
    rows: List[Any] = list(table.rows) if table else [None for _ in cases]
    if acks is not None:
        acks = list(acks) if run else acks
        add_acks(found, cases, rows, acks, link, windows, run)
    if run and isinstance(acks, list):
        add_shares(found, acks, scenario, link, windows, run, length_us)
    if timeline is not None:
        add_timeline(found, cases, rows, timeline, [begun(one, case, run) for one, case in zip(windows, cases)])
    for made, case, row in zip(found, cases, rows):
        made["doubts"] = "; ".join(doubts_of(case, made, row, timeline, own_of(case)["sender"] in answered))
    return frame_of_rows([{**columns, **more} for columns, more in zip(own, found)], names)


def frame_of_rows(rows: Sequence[Mapping[str, Any]], names: Sequence[str]) -> pd.DataFrame:
    """The frame of cases: the scenario's columns, METRICS and `doubts`, with counts as Int64 and figures as float64."""
    made = pd.DataFrame(rows, columns=[*names, *METRICS, "doubts"])
    return made.astype({name: "Int64" for name in COUNTS}).astype({name: "float64" for name in FIGURES})


def figures_of_orders(
    scenario: Mapping[str, Any], count: int = 0, changes: int = 0, path: str | Path | None = None
) -> pd.DataFrame:
    """The figures of flows that share a link, in `count` orders of the scenario's flows, or in all where it is 0, each
    with `changes` small changes of queue and delays.

    A row for each flow of each run, those of a run in the order of the scenario: the columns of `figures`, and `run`
    from 1, the flow's `place` in the run's order from 1, and `change`, 0 where nothing is changed. `path` is that of
    the program. Errors: CcpError where the scenario isn't one of `shared`, or has too many orders."""
    made = []
    for run, table in orders.tables_of(orders.runs_of(dict(scenario), count, changes), path):
        flows = range(len(run.order))
        frame = figures(run.scenario, table=table).iloc[[run.place(flow) - 1 for flow in flows]]
        made.append(frame.assign(run=run.number, place=[run.place(flow) for flow in flows], change=run.change))
    return pd.concat(made, ignore_index=True)


def figures_of_means(
    scenario: Mapping[str, Any], window: Window = Window(), path: str | Path | None = None
) -> pd.DataFrame:
    """The figures of each case of a scenario of any number of cases that counts and means are enough for, as
    probe.mean_figures makes them: a row a case with the columns of `figures`. `path` is that of the program. Errors:
    CcpError."""
    names, own = columns_of(scenario)
    rows = []
    for case, columns, one in zip(scenario["cases"], own, probe.mean_figures(scenario, window, program=path)):
        made = {**columns, **{name: value for name, value in asdict(one).items() if name in METRICS}}
        rows.append({**made, "doubts": "; ".join(doubts_of(case, made, None, None))})
    return frame_of_rows(rows, names)


def add_acks(
    found: List[Dict[str, Any]],
    cases: Sequence[Any],
    rows: Sequence[Any],
    acks: Iterable[AckFrame],
    link: Link,
    windows: Sequence[Window],
    run: SharedRun | None,
) -> None:
    """Adds the figures of acknowledgements, where their counts are those of the table."""
    names = []
    for at, flow in enumerate(acks):
        names.append(flow.case)
        if at < len(cases) and flow.case == cases[at]["name"]:
            if rows[at]:
                texts.same_run(flow.case, "acknowledgements", whole_counts(flow.frame), rows[at])
            found[at].update(figures_of_acks(cases[at], flow.frame, link, windows[at], run))
    check_cases({"cases": cases}, names, "the acknowledgements")


def add_shares(
    found: List[Dict[str, Any]],
    acks: Sequence[AckFrame],
    scenario: Mapping[str, Any],
    link: Link,
    windows: Sequence[Window],
    run: SharedRun,
    length_us: int | None,
) -> None:
    """Adds the figures of flows on one link: the shares of what each got in its window of time, Jain's index in windows
    of `length_us` in which two flows or more take part, and the time to the fair share over the whole run."""
    if not acks:
        return
    acked = []
    for flow, case, window in zip(acks, scenario["cases"], windows):
        after_us, upto_us, _ = bounds_of(case, 0, window, run)
        acked.append(whole_counts(inside_of(flow.frame, after_us, upto_us))["acked"])
    every = joined(acks)
    flows = shares.flows_of(every, scenario, run.end_us)
    edges = shares.edges_us(run.end_us, length_us or shares.window_us(run.end_us, shares.WINDOWS))
    got = shares.counted_in(every, flows, edges, "bytes_acked")
    packets = shares.counted_in(every, flows, edges, "packets_acked")
    active = shares.active_in(flows, edges)
    until_us = run.end_us if windows[0].until_us is None else windows[0].until_us
    is_inside = (edges[:-1] >= windows[0].begin_us) & (edges[1:] <= until_us)
    index = shares.jain_in(got[is_inside], active[is_inside], 2).mean()
    fair = shares.fair_after_s(packets, active, shares.chances_in(link.trace(run.trace), edges), flows)
    for made, more, after_s in zip(found, shared_figures(acked, run, link), fair):
        made.update(more, jain_windows=index, fair_after_s=after_s)


def begun(window: Window, case: Mapping[str, Any], run: SharedRun | None) -> Window:
    """A window of time that begins at a flow's start or later."""
    return Window(max(window.begin_us, case.get("start_us", 0)), window.until_us) if run else window


def add_timeline(
    found: List[Dict[str, Any]],
    cases: Sequence[Any],
    rows: Sequence[Any],
    timeline: Timeline,
    windows: Sequence[Window],
) -> None:
    """Adds the figures of a timeline, where its counts are those of the table."""
    check_cases({"cases": cases}, list(timeline.ends["case"]), "the timeline")
    reports = dict(list(timeline.reports.groupby("flow", sort=False)))
    for at, end in enumerate(timeline.ends.itertuples()):
        counts = {name: int(getattr(end, name)) for name in "acks reports held faults epochs cwnd".split()}
        counts["tail"] = counts["acks"] - int(end.first)
        if rows[at]:
            texts.same_run(end.case, "timeline", counts, rows[at])
        found[at].update({name: counts[name] for name in ("reports", "held", "faults", "epochs")})
        if end.flow in reports:
            found[at]["window_mean_bytes"] = mean_window(reports[end.flow], windows[at])


def check_cases(scenario: Mapping[str, Any], names: Sequence[str], what: str) -> None:
    """Refuses a text whose cases aren't those of the scenario in order."""
    wanted = [case["name"] for case in scenario["cases"]]
    for at, (name, found) in enumerate(zip(wanted, names)):
        if name != found:
            raise CcpError("%s: case %d is %s, and in the scenario %s" % (what, at, found, name))
    if len(names) != len(wanted):
        raise CcpError("%s: there are %d cases, and %d in the scenario" % (what, len(names), len(wanted)))


# ---- doubts


def first_window(mss: int) -> int:
    """The window that an agent begins with, in bytes (RFC 5681, section 3.1)."""
    return mss * (2 if mss > 2190 else 3 if mss > 1095 else 4)


def doubts_of(
    case: Mapping[str, Any],
    made: Mapping[str, Any],
    row: Mapping[str, Any] | None,
    timeline: Timeline | None,
    is_answered: bool = False,
) -> List[str]:
    """Why the figures of a case may not be those of the sender that its name says."""
    found = []
    if made.get("faults"):
        found.append("%s of its program" % counted(made["faults"], "fault"))
    if made.get("reports") == 0:
        found.append("no report")
    if row and row["acks"] > row["timeouts"] and {row["peak"], row["cwnd"]} == {first_window(case["mss"])}:
        found.append("its window never moved from %d bytes" % row["cwnd"])
    is_own = bool(case.get("ss")) and case.get("ss") == case.get("ca")
    if is_own and not is_answered and (made.get("epochs") or 0) > 1:
        found.append("its agent changed the program %s" % counted(made["epochs"] - 1, "time"))
    if made.get("held"):
        found.append("%s held back" % counted(made["held"], "report"))
    return found


def counted(count: int, what: str) -> str:
    """A number with its noun, in the plural unless it is 1."""
    return "%d %s%s" % (count, what, "" if count == 1 else "s")


def print_doubts(frame: pd.DataFrame) -> None:
    """Prints a warning on standard error for each case with a doubt."""
    for case, doubts in zip(frame["case"], frame["doubts"]):
        if doubts:
            warn("case %s: %s" % (case, doubts))


def spans_differ(frame: pd.DataFrame) -> bool:
    """Whether the measured spans of cases of one trace differ by more than one per cent."""
    spans = frame.dropna(subset=["span_s"]).groupby("trace", sort=False)["span_s"].agg(["min", "max"])
    return bool((spans["max"] > (1 + SAME_SPAN) * spans["min"]).any())


# ---- over cases


def groups(
    frame: pd.DataFrame, by: Sequence[str], names: Sequence[str] = tuple(METRICS), has_intervals: bool = True
) -> pd.DataFrame:
    """The cases of `figures` with equal values in the columns `by`, a row a group: `n` is the number of its cases, and
    of each figure `NAME_n` the number of cases that have it, `NAME_mean`, `NAME_sd` their standard deviation (divisor
    n - 1), and with `has_intervals` `NAME_ci95`, half of the 95 % interval of the mean by Student's t. The order is
    that of the cases."""
    values = frame[list(names)].astype("float64")
    grouped = values.groupby([frame[name] for name in by], sort=False, dropna=False)
    counts, means, deviations = grouped.count(), grouped.mean(), grouped.std()
    made = {"n": grouped.size()}
    for name in names:
        count = counts[name].to_numpy()
        made[name + "_n"], made[name + "_mean"], made[name + "_sd"] = counts[name], means[name], deviations[name]
        if has_intervals:
            made[name + "_ci95"] = quantile_of_t(count - 1) * deviations[name] / np.sqrt(np.maximum(count, 1))
    return pd.DataFrame(made).reset_index()


def quantile_of_t(degrees: np.ndarray) -> np.ndarray:
    """The quantile 0.975 of Student's t; nan where there is no degree of freedom. scipy is imported only where there
    is one, since that takes long."""
    if (degrees < 1).all():
        return np.full(len(degrees), np.nan)
    from scipy.special import stdtrit  # scipy.stats takes far longer to import

    return np.asarray(stdtrit(np.maximum(degrees, 1), 0.975))


# ---- what is printed


def csv_text(frame: pd.DataFrame) -> str:
    """A frame as CSV, numbers with nine significant digits at most."""
    return frame.to_csv(index=False, float_format="%.9g", lineterminator="\n")


def plain(value: Any) -> Any:
    """A value of a frame as JSON has it: floats with nine significant digits at most, None for what isn't there."""
    if value is None or value is pd.NA or (isinstance(value, float) and value != value):
        return None
    if isinstance(value, (float, np.floating)):
        return float("%.9g" % value)
    return value.item() if isinstance(value, np.generic) else value


def rows_of(frame: pd.DataFrame) -> List[Dict[str, Any]]:
    """The rows of a frame as dicts of plain values."""
    columns = [frame[name].astype(object).tolist() for name in frame.columns]
    return [dict(zip(frame.columns, map(plain, row))) for row in zip(*columns)]


def json_text(frame: pd.DataFrame, by: Sequence[str] | None, names: Sequence[str]) -> str:
    """The figures of cases, or those of groups by columns, as JSON."""
    rows = rows_of(frame)
    if by is None:
        return json.dumps({"cases": rows}, indent=1) + "\n"
    kinds = ("n", "mean", "sd", "ci95")
    made = [
        {
            "by": {name: row[name] for name in by},
            "n": row["n"],
            "metrics": {name: {kind: row["%s_%s" % (name, kind)] for kind in kinds} for name in names},
        }
        for row in rows
    ]
    return json.dumps({"groups": made}, indent=1) + "\n"


def read_figures(path: str) -> Tuple[pd.DataFrame, bool]:
    """The frame of a file that `ccp metrics --format json` or csv wrote, and whether it has groups."""
    from .files import read_text

    text = read_text(path)
    try:
        if text.lstrip().startswith("{"):
            frame, is_grouped = frame_of_json(json.loads(text))
        else:
            frame = pd.read_csv(io.StringIO(text))
            is_grouped = "n" in frame and any(str(name).endswith("_ci95") for name in frame)
    except pd.errors.ParserError:
        raise CcpError("%s: this isn't what `ccp metrics` writes: it is no JSON and no CSV" % name_of(path)) from None
    except (ValueError, KeyError, TypeError, AttributeError, OverflowError) as error:
        raise CcpError("%s: this isn't what `ccp metrics` writes: %s" % (name_of(path), error)) from None
    kinds = [name + kind for name in SHOWN if name + "_mean" in frame for kind in ("_sd", "_ci95")]
    for name in kinds if is_grouped else ("case", "sender"):
        if name not in frame:
            raise CcpError("%s: this isn't what `ccp metrics` writes: it has no column %s" % (name_of(path), name))
    for name in (name + kind for name in SHOWN for kind in ("", "_mean", "_sd", "_ci95")):
        if name in frame:
            try:
                frame[name] = frame[name].astype(float)
            except (ValueError, TypeError):
                raise CcpError("%s: the column %s has a value that is no number" % (name_of(path), name)) from None
    return frame, is_grouped


def frame_of_json(made: Mapping[str, Any]) -> Tuple[pd.DataFrame, bool]:
    """The frame of what json_text wrote, a row a case or a group, and whether the rows are groups."""
    if "groups" not in made:
        return pd.DataFrame(made["cases"]), False
    rows = []
    for group in made["groups"]:
        row = {**group["by"], "n": group["n"]}
        for name, values in group["metrics"].items():
            row.update(("%s_%s" % (name, kind), value) for kind, value in values.items())
        rows.append(row)
    return pd.DataFrame(rows), True


# ---- the command

WINDOW_HELP = (
    "length of the windows of time of flows on one link, in ms (1, 2 or 5 times a power of 10: at most %d windows)"
    % shares.WINDOWS
)


def add_arguments(parser: argparse.ArgumentParser) -> None:
    """Adds the arguments of `ccp metrics`."""
    parser.add_argument("scenario", metavar="SCENARIO", help="the scenario's file")
    parser.add_argument(
        "texts",
        nargs="*",
        metavar="TEXT",
        help="what campaign, timeline or acks, or shared, shared-timeline or shared-acks, printed of it",
    )
    parser.add_argument(
        "--until", type=seconds, metavar="S", help="figures over the first S seconds (to the end of each case)"
    )
    parser.add_argument(
        "--from", dest="begin", type=seconds, default=0, metavar="S", help="leaves out the first S seconds (0)"
    )
    parser.add_argument("--window-ms", type=whole(1, 10**6), metavar="W", help=WINDOW_HELP)
    names = list_of(str)
    parser.add_argument(
        "--by", type=names, metavar="COLUMNS", help="mean, deviation and interval over cases that are equal in these"
    )
    parser.add_argument(
        "--columns", type=names, metavar="COLUMNS", help="the columns that are written; with --by the figures (all)"
    )
    what = "runs a scenario itself, for the figures that means are enough for: fast, in place of reading a text"
    parser.add_argument("--means", action="store_true", help=what)
    what = "runs a scenario of shared in all orders of its flows, or in N of them, in place of reading a text"
    parser.add_argument("--orders", type=orders.order_count, metavar="all|N", help=what)
    what = "with --orders: runs each order with N small changes of queue and delays (none)"
    parser.add_argument("--changes", type=whole(1, orders.MOST_RUNS), default=0, metavar="N", help=what)
    add_ccp(parser)
    parser.add_argument("--format", choices=("csv", "json", "parquet"), default="csv", help="the form (csv)")
    parser.add_argument("--json", dest="format", action="store_const", const="json", help="the same as --format json")
    parser.add_argument("--out", metavar="FILE", help="the file that is written (standard output)")
    for old in ("table", "timeline", "acks"):
        parser.add_argument("--" + old, dest="old_" + old, metavar="TEXT", help=argparse.SUPPRESS)


def seconds(text: str) -> int:
    """Seconds above 0, with at most six decimals, as microseconds."""
    try:
        value = round(float(text) * 1e6)
    except (ValueError, OverflowError):
        value = 0
    if not 0 < value <= 10**15:
        raise argparse.ArgumentTypeError("%s isn't a number of seconds above 0" % text)
    return value


@contextmanager
def opened(path: str) -> Iterator[IO[bytes]]:
    """A file for its bytes; `-` is standard input."""
    try:
        file = sys.stdin.buffer if path == "-" else open(path, "rb")
    except OSError as error:
        raise CcpError("%s: %s" % (name_of(path), reason_of(error))) from None
    try:
        yield file
    except OSError as error:
        raise CcpError("%s: %s" % (name_of(path), reason_of(error))) from None
    except BadText as error:
        raise CcpError("%s: %s" % (name_of(path), error)) from None
    finally:
        if path != "-":
            file.close()


class Continued(Begun):
    """A file whose beginning was read already. `end` are the last bytes that were read, which hold a line `link`."""

    end = b""

    def read(self, size: int = -1) -> bytes:
        """At most `size` bytes, or all where it is negative, the beginning first."""
        piece = super().read(size)
        self.end = (self.end + piece)[-1024:]
        return piece


@dataclass
class Given:
    """The texts of a run: the table, the timeline and the acknowledgements, and the numbers of the line `link`, which
    those of flows on one link have."""

    table: texts.Table | None = None
    timeline: Timeline | None = None
    acks: List[AckFrame] | None = None
    link: Dict[str, int] | None = None

    def add_link(self, end: str, path: str) -> None:
        """Keeps the numbers of the line `link` at the end of a text, where there is one. All texts have the same."""
        last = end.rstrip("\r\n").rpartition("\n")[2]
        if not last.startswith("link "):
            return
        found = texts.read_link(last)
        if self.link not in (None, found):
            raise CcpError("%s: its line `link` differs from that of another text: different runs" % name_of(path))
        self.link = found


def read_given(paths: Sequence[str]) -> Given:
    """Reads the texts of one run, each by what it is. At most one is of each kind."""
    given = Given()
    for path in paths:
        with opened(path) as file:
            beginning = file.read(1 << 16)
            kind = texts.kind_of(beginning.decode("utf-8", "surrogateescape"))
            name = {"table": "table", "live": "timeline", "acks": "acks"}.get(kind)
            if name is None:
                raise CcpError("%s: a text of campaign, shared, timeline or acks is expected" % name_of(path))
            if getattr(given, name) is not None:
                raise UsageError("%s: there are two texts of this kind" % name_of(path))
            whole_file = Continued(beginning, file)
            if name == "acks":
                given.acks = list(acks_in(whole_file))  # type: ignore[arg-type]
            else:
                data = checked_length(whole_file.read(MOST_BYTES + 1), path)
                text = data.decode("utf-8", "surrogateescape")
                setattr(given, name, texts.read_table(text) if name == "table" else timeline_of(texts.flows_in(text)))
            given.add_link(whole_file.end.decode("utf-8", "surrogateescape"), path)
    return given


def paths_of(arguments: argparse.Namespace) -> List[str]:
    """The texts' files. The options of version 0.9 are accepted with a warning."""
    paths = list(arguments.texts)
    for old in ("table", "timeline", "acks"):
        path = getattr(arguments, "old_" + old)
        if path:
            warn("--%s %s is now %s alone, without an option" % (old, path, path))
            paths.append(path)
    if not paths:
        text = "a text of campaign, shared, timeline or acks is expected after the scenario"
        raise UsageError("%s is the only file: %s" % (name_of(arguments.scenario), text))
    if [arguments.scenario, *paths].count("-") > 1:
        raise UsageError("only one of the files is standard input")
    return paths


def check_orders(arguments: argparse.Namespace) -> None:
    """Refuses what doesn't go together with --means or --orders."""
    if arguments.means and (arguments.texts or arguments.orders is not None or arguments.window_ms):
        raise UsageError("--means runs the scenario itself, without a text, --orders and --window-ms")
    if arguments.orders is None and arguments.changes:
        raise UsageError("--changes needs --orders")
    if arguments.orders is not None and (arguments.texts or arguments.begin or arguments.until):
        raise UsageError("--orders runs the scenario itself, without a text, --from and --until")


def check_columns(option: str, found: Sequence[str], names: Sequence[str]) -> None:
    """Refuses the name of a column that isn't there."""
    for name in found:
        if name not in names:
            raise UsageError("%s %s: there is no such column; there are %s" % (option, name, ", ".join(names)))


def write_out(text: str, path: str | None) -> None:
    """Writes a text to a file, or to standard output where the path is None. A CcpError where it can't be written."""
    if path is None:
        sys.stdout.write(text)
        return
    try:
        Path(path).write_text(text, encoding="utf-8")
    except OSError as error:
        raise CcpError("%s: %s" % (path, reason_of(error))) from None


def write_parquet(frame: pd.DataFrame, path: str | None) -> None:
    """Writes a frame as Parquet, for which pandas needs pyarrow or fastparquet."""
    if path is None:
        raise UsageError("--format parquet needs --out FILE")
    try:
        frame.to_parquet(path)
    except ImportError:
        raise CcpError("--format parquet needs pyarrow or fastparquet, and neither is installed") from None
    except OSError as error:
        raise CcpError("%s: %s" % (path, reason_of(error))) from None


def run(arguments: argparse.Namespace) -> int:
    """Runs `ccp metrics`."""
    check_orders(arguments)
    runs_itself = arguments.means or arguments.orders is not None
    paths = [] if runs_itself else paths_of(arguments)
    window = Window(arguments.begin, arguments.until)
    if window.until_us is not None and window.until_us <= window.begin_us:
        raise UsageError("--until: a time after that of --from is expected")
    scenario = read_run_scenario(arguments.scenario)
    names = [*columns_of(scenario, arguments.scenario)[0], *(orders.COLUMNS if arguments.orders is not None else [])]
    check_columns("--by", arguments.by or [], names)
    known = METRICS if arguments.by else [*names, *METRICS, "doubts"]
    check_columns("--columns", arguments.columns or [], known)
    if arguments.means:
        if "shared" in scenario:
            raise UsageError("--means is of cases with a link each, and %s is of shared" % name_of(arguments.scenario))
        frame, run_there = figures_of_means(scenario, window, arguments.ccp), None
    elif arguments.orders is not None:
        frame, run_there = figures_of_orders(scenario, arguments.orders, arguments.changes, arguments.ccp), None
    else:
        frame, run_there = figures_of_texts(scenario, read_given(paths), window, arguments.window_ms)
    if not arguments.quiet:
        print_doubts(frame)
        note_short(frame, window, run_there)
        for text in slow_start.note_of(list(frame["case"]), list(frame[slow_start.FIGURE])):
            warn(text)
    if arguments.by:
        made = groups(frame, arguments.by, arguments.columns or METRICS)
    else:
        made = frame[arguments.columns or known]
    if arguments.format == "parquet":
        write_parquet(made, arguments.out)
    elif arguments.format == "json":
        write_out(json_text(made, arguments.by, arguments.columns or METRICS), arguments.out)
    else:
        write_out(csv_text(made), arguments.out)
    return 0


def figures_of_texts(
    scenario: Mapping[str, Any], given: Given, window: Window, window_ms: int | None
) -> Tuple[pd.DataFrame, SharedRun | None]:
    """The figures of a scenario's texts, with the run where they are of flows on one link."""
    frame = figures(
        scenario,
        table=given.table,
        timeline=given.timeline,
        acks=given.acks,
        window=window,
        shared_link=given.link,
        length_us=window_ms and 1000 * window_ms,
    )
    return frame, shared_run(scenario, given.link)


def note_short(frame: pd.DataFrame, window: Window, run: SharedRun | None) -> None:
    """Warns of cases that end before the window of time does, so that their figures are of a shorter span. Flows on one
    link end with their run."""
    if window.until_us is None:
        return
    if run:
        if run.end_us < window.until_us:
            warn("the run ends at %g s, before --until %g" % (run.end_us / 1e6, window.until_us / 1e6))
        return
    short = frame[frame["end_s"] * 1e6 < window.until_us]
    for case, end in zip(short["case"], short["end_s"]):
        warn("case %s: it ends at %g s, before --until %g" % (case, end, window.until_us / 1e6))
