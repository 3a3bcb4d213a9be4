"""The shares of flows of a bottleneck over time, and the link's queue and losses."""

from __future__ import annotations

from typing import Any, List, Mapping, Sequence, Tuple

import numpy as np
import pandas as pd
from matplotlib.axes import Axes
from matplotlib.figure import Figure

from .. import metrics, program, texts
from ..errors import CcpError
from ..frames import read_acks
from ..metrics import Link
from ..shares import (
    WINDOWS,
    active_in,
    chances_in,
    counted_in,
    edges_us,
    flows_of,
    flows_seen,
    jain_in,
    shares_of,
    throughput_mbps,
    waits_in,
    waits_of,
    window_us,
)
from . import pages
from .over_time import LABELS, draw_lines
from .pages import MOST_SENDERS, Look
from .series import steps


def shared_tables(scenario: Mapping[str, Any], steps: int, path: str | None) -> List[texts.Table]:
    """The tables of `shared` up to some points of time, at most `steps`, each with more rounds than the one before. A
    run of fewer rounds is the beginning of one of more."""
    shared, found, before = scenario["shared"], [], 0
    for step in range(1, steps + 1):
        upto = max(1, shared["rounds"] * step // steps)
        made = {**scenario, "shared": {**shared, "rounds": upto}}
        table = program.run_table(made, "shared", program=path)
        done = table.link["rounds"] if table.link else 0
        if done > before:
            found.append(table)
        if done < upto:
            break
        before = done
    return found


def shared_runs(scenario: Mapping[str, Any], steps: int, path: str | None) -> Tuple[List[float], np.ndarray]:
    """The times at which the bottleneck is looked at, in seconds, and the bytes acknowledged up to each, a column a
    flow."""
    tables, quantum_us = shared_tables(scenario, steps, path), scenario["shared"]["quantum_us"]
    times = [0.0, *((table.link or {})["rounds"] * quantum_us / 1e6 for table in tables)]
    rows = [[0] * len(scenario["cases"]), *([row["acked"] for row in table.rows] for table in tables)]
    return times, np.array(rows, dtype=float)


def flow_labels(cases: Sequence[Mapping[str, Any]]) -> List[str]:
    """What a legend calls the flows on one link: their senders, where some start later with when each one starts, and
    a number where two would be called the same."""
    starts = [case.get("start_us", 0) / 1e6 for case in cases]
    ends = [", from %g s" % start if any(starts) else "" for start in starts]
    labels = [metrics.own_of(case)["sender"] + end for case, end in zip(cases, ends)]
    return [
        label if labels.count(label) == 1 else "%s (%d)" % (label, labels[: at + 1].count(label))
        for at, label in enumerate(labels)
    ]


def shares(
    names: Sequence[str],
    times: Sequence[float],
    acked: np.ndarray,
    look: Look = Look(),
    capacity: Any = None,
    active: np.ndarray | None = None,
    queue: pd.DataFrame | None = None,
) -> Figure:
    """Each flow's throughput and share of a bottleneck over time, Jain's index, and the queue. `times` are in seconds,
    and `acked` has the bytes acknowledged up to each of them, a column a flow. Between the times, `capacity` are
    Mbit/s, `active` says which flows take part (without it all), and `queue` is as shares.waits_in has it."""
    legend, edges = pages.line_keys(names), np.array(times)
    if capacity is not None:
        legend["link"] = pages.link_key()
    heights = [9.5, 9.5, 6.0] + [6.0] * (queue is not None)
    figure, panels = pages.page(look, legend, heights, sharex=True)
    got = pd.DataFrame(np.diff(acked, axis=0))
    is_on = pd.DataFrame(np.ones(got.shape, bool) if active is None else active)
    is_shown = is_on | (got > 0)
    if capacity is not None:
        panels[0].stairs(capacity, edges, fill=True, color=pages.GREY, linewidth=0)
    for panel, frame in zip(panels, (throughput_mbps(got, 1e6 * edges), 100 * shares_of(got))):
        shown = frame.where(is_shown)
        draw_lines(panel, [steps(edges, shown[number].to_numpy()) for number in shown], edges[-1])
    draw_steps(panels[2], edges, jain_in(got, is_on))
    for panel, label, top in zip(panels, (LABELS["throughput"], "share [%]", "Jain's index"), (None, 104, 1.05)):
        panel.set(ylabel=label, ylim=(0, top))
    if queue is not None:
        draw_queue(panels[3], edges, queue)
    panels[-1].set(xlabel="virtual time [s]", xlim=(0, edges[-1]))
    return figure


def draw_steps(panel: Axes, edges: np.ndarray, values: Any) -> None:
    """A line of the link, with a value between each two edges."""
    panel.plot(*steps(edges, np.asarray(values, dtype=float)), drawstyle="steps-post", **pages.PLAIN)


def draw_queue(panel: Axes, edges: np.ndarray, queue: pd.DataFrame) -> None:
    """The mean wait of each window as a line, over a band from the least wait to the greatest."""
    least, most = (queue[name].to_numpy() for name in ("least_ms", "most_ms"))
    panel.stairs(most, edges, baseline=least, fill=True, color=pages.GREY, linewidth=0)
    draw_steps(panel, edges, queue["mean_ms"])
    panel.set(ylabel="queue [ms]", ylim=(0, 1.08 * np.nanmax(most, initial=0) or 1))


def link_page(times: Sequence[float], lost: np.ndarray, queue: pd.DataFrame | None, look: Look = Look()) -> Figure:
    """The link's queue and losses over time. `lost` are the packets of all flows whose loss was known up to each of
    the times, and `queue` is as shares.waits_in has it, or None where it isn't known."""
    edges = np.array(times)
    figure, panels = pages.page(look, {}, [7.0] * (1 if queue is None else 2), sharex=True)
    if queue is not None:
        draw_queue(panels[0], edges, queue)
    rates = np.diff(lost) / np.diff(edges)
    draw_steps(panels[-1], edges, rates)
    panels[-1].set(ylabel="lost packets per s", ylim=(0, 1.1 * max(rates.max(initial=0), 1)))
    panels[-1].set(xlabel="virtual time [s]", xlim=(0, edges[-1]))
    return figure


def shares_of_acks(
    text: str, scenario: Mapping[str, Any] | None, length_us: int | None = None, look: Look = Look()
) -> Figure:
    """The shares of a text of `shared-acks` in windows of `length_us`. Its scenario gives the capacity of the link, the
    queue, and when flows start and end; without it those are left out, and a flow is taken to start with the sending of
    its first acknowledged packet. Errors: CcpError, also where the text is of another scenario."""
    acks, packets = read_acks(text), texts.read_link(text)
    run = metrics.shared_run(scenario, packets) if scenario else None
    if scenario and run:
        metrics.check_cases(scenario, list(acks["case"].cat.categories), "the acknowledgements")
        found = flows_of(acks, scenario, run.end_us)
    else:
        found = flows_seen(acks)
    end_us = run.end_us if run else int(found["end_us"].max())
    edges = edges_us(end_us, length_us or window_us(max(end_us, 1), WINDOWS))
    check_shares(found, edges)
    got = counted_in(acks, found, edges, "bytes_acked")
    acked = np.vstack([np.zeros((1, len(found))), got.cumsum().to_numpy()])
    active, capacity, queue = active_in(found, edges).to_numpy(), None, None
    if scenario and run:
        chances = chances_in(Link(scenario).trace(run.trace), edges)
        capacity = 8 * max(case["mss"] for case in scenario["cases"]) * chances / np.diff(edges)
        queue = waits_in(waits_of(acks, found), edges)
    names = flow_labels(scenario["cases"]) if scenario else list(found["case"])
    return shares(names, list(edges / 1e6), acked, look, capacity, active, queue)


def check_shares(found: pd.DataFrame, edges: np.ndarray) -> None:
    """Refuses what a plot of shares can't show: no flow, too many of them, or a run shorter than a window."""
    if not 1 <= len(found) <= MOST_SENDERS:
        raise CcpError("%s: a plot of shares has 1 to %d" % (metrics.counted(len(found), "flow"), MOST_SENDERS))
    if len(edges) < 2:
        raise CcpError("the run is shorter than a window of time: a smaller --window-ms is needed")
