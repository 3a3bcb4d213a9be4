"""All senders of a comparison together over each trace: their shares over time, Jain's index, and the link's queue and
losses.

Where the program has the mode `shared-acks`, shares over time come from its acknowledgements. Else the bottleneck is
looked at in steps: `shared` prints one row a flow, and a run of fewer rounds is the beginning of one of more."""

from __future__ import annotations

import json
from dataclasses import dataclass, field
from functools import partial
from pathlib import Path
from typing import Any, Dict, List, Mapping, Sequence, Tuple

import numpy as np
import pandas as pd
from matplotlib.figure import Figure

from .. import frames, metrics, plots, program, shares, texts
from ..files import write_text
from ..metrics import Link, Window
from ..plots import Look
from ..scenario_files import Scenario, write_scenario
from ..tables import LIMITS
from .cases import LEAST_US, outside_of, rounds_of
from .runs import Progress, shown_cases

# how often the bottleneck is looked at
STEPS = 40
# flows have converged from the time on after which Jain's index of each step is at least this
FAIR = 0.95


@dataclass(frozen=True)
class Series:
    """What flows and their link had done up to some times. `times` are in seconds, the first one is 0; `acked` has the
    bytes acknowledged, a row a time and a column a flow, and `lost` the packets of all flows. `queue` is as
    shares.waits_in has it between the times, or None where the program has no mode `shared-acks`."""

    times: List[float]
    acked: np.ndarray
    lost: np.ndarray
    queue: pd.DataFrame | None = None


@dataclass(frozen=True)
class Sharing:
    """What the senders did together over a trace, in a run for each seed: `rows` has the figures of each sender in each
    run, with `seed` and `converged_s`, which is None where the flows don't converge. `series` is of the first run, and
    `doubts` are what makes figures doubtful."""

    trace: str
    names: List[str]
    series: Series
    rows: List[Dict[str, Any]]
    quantum_us: int
    doubts: List[str] = field(default_factory=list)


def scenario_of(scenario: Scenario, trace: str, numbers: Sequence[int], span_us: int) -> Scenario:
    """The scenario of `shared` in which the senders of these cases share a trace for a span."""
    cases = [scenario["cases"][number] for number in numbers]
    quantum_us, rounds = rounds_of(span_us)
    chances = Link(scenario).chances(trace, rounds * quantum_us)
    acks = min(chances, LIMITS["acks"], LIMITS["acks_in_all"] // len(cases))
    shared = {"trace": trace, "queue": cases[0]["queue"], "quantum_us": quantum_us, "rounds": rounds}
    traces = {trace: scenario["traces"][trace]}
    return {**scenario, "traces": traces, "shared": shared, "cases": [{**case, "acks": acks} for case in cases]}


# ---- over time


def series_of(one: Scenario, path: Path) -> Series:
    """What the flows of a scenario of `shared` had done up to each of STEPS times."""
    shared = one["shared"]
    if not program.knows_mode("shared-acks", path):
        return series_of_tables(plots.shared_tables(one, STEPS, str(path)), shared["quantum_us"])
    text = program.run("shared-acks", one, program=path).output
    acks, rounds = frames.read_acks(text), texts.read_link(text)["rounds"]
    edges = steps_us(shared, rounds)
    flows = shares.flows_of(acks, one, rounds * shared["quantum_us"])
    acked, lost = (shares.counted_in(acks, flows, edges, name) for name in ("bytes_acked", "lost_pkts_sample"))
    return Series(
        list(edges / 1e6),
        np.vstack([np.zeros((1, len(flows))), acked.cumsum().to_numpy(dtype=float)]),
        np.array([0, *lost.sum(axis=1).cumsum()]),
        shares.waits_in(shares.waits_of(acks, flows), edges),
    )


def steps_us(shared: Mapping[str, Any], rounds: int) -> np.ndarray:
    """The ends of STEPS equal parts of the rounds that a run may have, up to those that it had, in microseconds; 0
    comes first."""
    ends = [max(1, shared["rounds"] * step // STEPS) for step in range(1, STEPS + 1)]
    return np.unique([0, *(min(end, rounds) for end in ends)]).astype(np.int64) * shared["quantum_us"]


def series_of_tables(tables: Sequence[texts.Table], quantum_us: int) -> Series:
    """The series of tables of `shared`, each with more rounds than the one before."""
    links = [table.link or {} for table in tables]
    acked = np.array([[row["acked"] for row in table.rows] for table in tables], dtype=float)
    return Series(
        [0.0, *(link["rounds"] * quantum_us / 1e6 for link in links)],
        np.vstack([np.zeros((1, acked.shape[1])), acked]),
        np.array([0, *(link["lost"] for link in links)]),
    )


def converged(times: Sequence[float], acked: np.ndarray) -> float | None:
    """The time from which on Jain's index of each step is at least FAIR, in seconds."""
    found = None
    for at, row in enumerate(np.diff(acked, axis=0)):
        index = metrics.jain(list(row))
        if index is None or index < FAIR:
            found = None
        elif found is None:
            found = times[at]
    return found


def sets_of(scenario: Scenario) -> Dict[str, List[List[int]]]:
    """The numbers of the cases that share a trace, a set for each seed: those with the first queue, delay, loss and
    mark. Agents outside aren't among them: they drive a link alone."""
    found, cases = {}, scenario["cases"]
    for trace, shown in shown_cases(scenario).items():
        rest = without_seed(cases[shown[0]])
        seeds: Dict[Any, List[int]] = {}
        for number, case in enumerate(cases):
            if without_seed(case) == rest and not outside_of(case):
                seeds.setdefault(case.get("seed"), []).append(number)
        if seeds:
            found[trace] = list(seeds.values())
    return found


def without_seed(case: Mapping[str, Any]) -> List[Any]:
    """What a case is of, but for its sender and its seed."""
    return [case.get(name) for name in ("trace", "queue", "delay_us", "loss", "mark")]


def run_all(
    scenario: Scenario, windows: Mapping[str, Window], folder: Path, progress: Progress, path: Path
) -> List[Sharing]:
    """Runs the senders together over each trace, and keeps the scenarios and the tables in the folder."""
    made = []
    for trace, sets in sets_of(scenario).items():
        until_us = windows[trace].until_us or LEAST_US
        seeds = ", " + metrics.counted(len(sets), "seed") if len(sets) > 1 else ""
        progress.say("shared: %s together over %s%s" % (metrics.counted(len(sets[0]), "flow"), trace, seeds))
        runs: List[Sharing] = []
        for numbers in sets:
            seed = "-s%d" % scenario["cases"][numbers[0]]["seed"] if runs else ""
            name = "shared-%s%s" % (trace, seed)
            runs.append(run_one(scenario_of(scenario, trace, numbers, until_us), folder / name, path))
        first = runs[0]
        rows = [row for run in runs for row in run.rows]
        doubts = dict.fromkeys(text for run in runs for text in run.doubts)
        made.append(Sharing(trace, first.names, first.series, rows, first.quantum_us, list(doubts)))
    return made


def run_one(one: Scenario, kept: Path, path: Path) -> Sharing:
    """Runs the flows of a scenario of `shared`, and keeps it and its table under the name of a file without its end."""
    trace, seed = one["shared"]["trace"], one["cases"][0].get("seed")
    write_scenario(one, kept.with_name(kept.name + ".json"))
    printed = program.run("shared", one, program=path).output
    write_text(kept.with_name(kept.name + ".txt"), printed)
    table, series = texts.read_table(printed), series_of(one, path)
    since = converged(series.times, series.acked)
    rows = [{**row, "seed": seed, "converged_s": since} for row in metrics.rows_of(metrics.figures(one, table=table))]
    names, doubts = [str(row["sender"]) for row in rows], doubts_of(one, table, rows)
    return Sharing(trace, names, series, rows, one["shared"]["quantum_us"], doubts)


def doubts_of(one: Scenario, table: texts.Table, rows: Sequence[Mapping[str, Any]]) -> List[str]:
    """Why the figures of flows that share a link are doubtful: what `metrics` has found, and flows that had all their
    acknowledgements before the run ended."""
    shared = one["shared"]
    chances = Link(one).chances(shared["trace"], shared["rounds"] * shared["quantum_us"])
    found = ["%s: %s" % (row["sender"], row["doubts"]) for row in rows if row["doubts"]]
    for case, read, row in zip(one["cases"], table.rows, rows):
        if read["acks"] == case["acks"] < chances:
            text = "%s: it had all its %d acknowledgements at %.2f s, and left the link to the others: --aggregate K"
            found.append(text % (row["sender"], read["acks"], read["now"] / 1e6))
    return ["%s, all together: %s" % (shared["trace"], text) for text in found]


def jobs_of(found: Sequence[Sharing], scenario: Scenario, look: Look) -> List[Tuple[str, str, str, Any]]:
    """The plots of what was shared, as report.drawn_all takes them."""
    what = (
        "All senders at once over one link: throughput with the link's capacity in grey, shares, and Jain's index; "
        "then %sthe packets that were lost, when their loss became known."
    )
    queue = "how long packets waited in the queue, the mean over the range of those sent in each step, and "
    return [
        (
            "shared-" + one.trace,
            "Sharing one link: " + one.trace,
            what % ("" if one.series.queue is None else queue),
            partial(pages_of, one, scenario, look),
        )
        for one in found
    ]


def pages_of(one: Sharing, scenario: Scenario, look: Look) -> List[Figure]:
    """The pages of the flows on one link: their throughput and shares, then the losses and the queue."""
    mss = next(case["mss"] for case in scenario["cases"] if case["trace"] == one.trace)
    series, edges = one.series, np.round(1e6 * np.array(one.series.times)).astype(np.int64)
    capacity = 8 * mss * shares.chances_in(Link(scenario).trace(one.trace), edges) / np.diff(edges)
    return [
        plots.shares(one.names, series.times, series.acked, look, capacity),
        plots.link_page(series.times, series.lost, series.queue, look),
    ]


# the figures of the report's table, with their heads
FIGURES = {
    "throughput_mbps": metrics.SHOWN["throughput_mbps"],
    "share": metrics.SHOWN["share"],
    "loss_rate": metrics.SHOWN["loss_rate"],
    "jain": metrics.SHOWN["jain"],
    "link_utilization": metrics.Figure("link: utilization [%]", 100, 1),
    "link_loss_rate": metrics.Figure("link: lost packets [%]", 100, 2),
    "converged_s": metrics.Figure("converged after [s]", 1, 2),
}
HEADS = [shown.label for shown in FIGURES.values()]


def table_of(found: Sequence[Sharing]) -> List[Dict[str, Any]]:
    """The rows of the report's table of shares: means over the seeds, with half of their 95 % intervals."""
    made = []
    for one in found:
        frame = pd.DataFrame(one.rows)
        groups = metrics.groups(frame, ["sender"], list(FIGURES)).to_dict("records")
        for group in groups:
            doubts = [row["doubts"] for row in one.rows if row["sender"] == group["sender"] and row["doubts"]]
            cells = [cell_of(group, name) for name in FIGURES]
            made.append(
                {
                    "trace": one.trace,
                    "sender": group["sender"],
                    "cells": cells,
                    "doubts": "; ".join(dict.fromkeys(doubts)),
                }
            )
    return made


def cell_of(group: Mapping[str, Any], name: str) -> str:
    """A figure of a group as the table shows it, or none. Where only some seeds have it their number is shown."""
    shown, mean, half = FIGURES[name], group[name + "_mean"], group[name + "_ci95"]
    if pd.isna(mean):
        return "none"
    text = shown.text(mean, None if pd.isna(half) else half)
    count, known = int(group["n"]), int(group[name + "_n"])
    return text if count == known else "%s in %d of %d" % (text, known, count)


def mean_waits(series: Series) -> List[float | None] | None:
    """The mean wait of the packets sent in each step, in milliseconds; None where none was sent, or it isn't known."""
    if series.queue is None:
        return None
    return [None if np.isnan(wait) else float(wait) for wait in series.queue["mean_ms"]]


def json_text(found: Sequence[Sharing]) -> str:
    """Shares over time of the first run, and the figures of each run, as JSON."""
    made = [
        {
            "trace": one.trace,
            "senders": one.names,
            "quantum_us": one.quantum_us,
            "times_s": one.series.times,
            "acked_bytes": one.series.acked.tolist(),
            "lost_packets": one.series.lost.tolist(),
            "queue_ms": mean_waits(one.series),
            "figures": [{name: metrics.plain(row[name]) for name in ("sender", "seed", *FIGURES)} for row in one.rows],
        }
        for one in found
    ]
    return json.dumps({"shared": made}, indent=1) + "\n"
