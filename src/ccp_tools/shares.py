"""What each flow of a shared link gets over time: throughput, share, Jain's index, the time to the fair share, and the
queue of the link.

    text = open("acks.txt").read()
    acks, link = frames.read_acks(text), texts.read_link(text)
    run_us = link["rounds"] * scenario["shared"]["quantum_us"]
    flows, edges = flows_of(acks, scenario, run_us), edges_us(run_us, 1_000_000)
    got = counted_in(acks, flows, edges, "bytes_acked")
    print(throughput_mbps(got, edges), shares_of(got), jain_in(got, active_in(flows, edges)))

The acknowledgements are those of `shared-acks`, as frames.read_acks has them. A frame of flows has a row a flow, by its
number from 0; one over time has a row a window, by the window's beginning in microseconds of the link's time, and a
column a flow. Windows are of equal length and whole: what comes after the last one is in none of them."""

from __future__ import annotations

from typing import Any, Mapping, Sequence

import numpy as np
import pandas as pd

from .errors import CcpError
from .traces import Trace

# a flow has its share once it gets this part of it in this number of windows one after another
PART, IN_A_ROW = 0.9, 3
# the most windows of a run where no length is given
WINDOWS = 50


# ---- flows and windows


def flows_of(acks: pd.DataFrame, scenario: Mapping[str, Any], run_us: int) -> pd.DataFrame:
    """The flows of a scenario, in its order.

    Columns: `case`; `delay_us`, the time from a packet's chance to its acknowledgement; `start_us`, before which the
    flow sends nothing; `end_us`, the time of its last acknowledgement where it has all of them, else `run_us`, the end
    of the run. Source: the members of the same names, and `now` of `shared-acks`."""
    last = acks.groupby("flow")["now"].agg(["size", "max"])
    rows = []
    for number, case in enumerate(scenario["cases"]):
        count, end_us = map(int, last.loc[number]) if number in last.index else (0, 0)
        ends = end_us if count == case["acks"] else run_us
        rows.append((case["name"], int(case["delay_us"]), int(case.get("start_us", 0)), ends))
    return frame_of_flows(rows)


def flows_seen(acks: pd.DataFrame) -> pd.DataFrame:
    """The flows of acknowledgements alone, as flows_of has them. A flow is taken to start when it sent the packet of
    its first acknowledgement, and to end at its last one. `delay_us` is 0, since nothing says it."""
    rows = []
    for number, case in enumerate(acks["case"].cat.categories):
        own = acks[acks["flow"] == number]
        packets = own[own["packets_acked"] > 0]
        start_us = int(packets["now"].iloc[0]) - int(packets["rtt_sample_us"].iloc[0]) if len(packets) else 0
        rows.append((case, 0, start_us, int(own["now"].iloc[-1]) if len(own) else 0))
    return frame_of_flows(rows)


def frame_of_flows(rows: Sequence[Any]) -> pd.DataFrame:
    """A frame with the case, the delay, the start and the end of each flow, times in microseconds, by the flow's
    number."""
    made = pd.DataFrame(rows, columns=["case", "delay_us", "start_us", "end_us"])
    return made.rename_axis("flow")


def window_us(end_us: float, most: int = 250) -> int:
    """The length of windows of time, in microseconds: the least of 1, 2, 5, 10, 20 ms and so on with which a time has
    at most `most` windows."""
    lengths = (factor * 1000 * 10**power for power in range(12) for factor in (1, 2, 5))
    return next(length for length in lengths if end_us / length <= most)


def edges_us(run_us: int, length_us: int) -> np.ndarray:
    """The edges of the whole windows of a run, in microseconds: one more than there are windows."""
    return np.arange(0, run_us + 1, length_us, dtype=np.int64)


def by_window(values: Any, flows: pd.DataFrame, edges: np.ndarray) -> pd.DataFrame:
    """A frame over time of an array with a row a window and a column a flow."""
    return pd.DataFrame(values, index=pd.Index(edges[:-1], name="begin_us"), columns=flows.index)


def active_in(flows: pd.DataFrame, edges: np.ndarray) -> pd.DataFrame:
    """Whether each flow takes part in the whole of each window: it starts at the window's beginning or before, and it
    doesn't end before the window does."""
    starts, ends = (flows[name].to_numpy()[None, :] for name in ("start_us", "end_us"))
    return by_window((starts <= edges[:-1, None]) & (edges[1:, None] <= ends), flows, edges)


def counted_in(acks: pd.DataFrame, flows: pd.DataFrame, edges: np.ndarray, column: str) -> pd.DataFrame:
    """The sum of a column of acknowledgements over each window, as `bytes_acked` in bytes or `packets_acked`. An
    acknowledgement at an edge is in the later window. Source: `shared-acks`."""
    places = np.searchsorted(edges, acks["now"].to_numpy().astype(np.int64), "right") - 1
    is_inside = places < len(edges) - 1
    made = np.zeros((len(edges) - 1, len(flows)), np.int64)
    where = (places[is_inside], acks["flow"].to_numpy().astype(np.int64)[is_inside])
    np.add.at(made, where, acks[column].to_numpy().astype(np.int64)[is_inside])
    return by_window(made, flows, edges)


def chances_in(trace: Trace, edges: np.ndarray) -> np.ndarray:
    """How many chances a trace has in each window: a chance at an edge is in the later window."""
    return np.diff([trace.chances(int(edge) - 1) for edge in edges])


# ---- throughput, shares, and Jain's index


def throughput_mbps(got: pd.DataFrame, edges: np.ndarray) -> pd.DataFrame:
    """The throughput of each flow in each window, in Mbit/s, of the bytes that counted_in has: 8 * bytes / the window
    in microseconds."""
    return 8 * got / np.diff(edges)[:, None]


def shares_of(got: pd.DataFrame) -> pd.DataFrame:
    """Each flow's share of the bytes that all flows got in a window, from 0 to 1; nan where none got any."""
    total = got.sum(axis=1)
    return got.div(total.where(total > 0), axis=0)


def jain(values: Sequence[float]) -> float | None:
    """Jain's index of fairness of n values: (their sum)^2 / (n * the sum of their squares). It is 1 where all are
    equal and 1/n where one has all; None where all are 0. Source: R. Jain, D. Chiu and W. Hawe, A quantitative measure
    of fairness and discrimination for resource allocation in shared computer systems, DEC-TR-301, 1984."""
    squares = sum(value * value for value in values)
    return sum(values) ** 2 / (len(values) * squares) if squares else None


def jain_in(got: pd.DataFrame, active: pd.DataFrame, least: int = 1) -> pd.Series:
    """Jain's index of each window over the flows that take part in the whole of it; nan in a window with fewer than
    `least` of them, or where they got nothing."""
    index = [
        jain([float(value) for value in row[is_on]]) if is_on.sum() >= least else None
        for row, is_on in zip(got.to_numpy(), active.to_numpy())
    ]
    return pd.Series(index, index=got.index, dtype="float64", name="jain")


def fair_after_s(
    packets: pd.DataFrame,
    active: pd.DataFrame,
    chances: np.ndarray,
    flows: pd.DataFrame,
    part: float = PART,
    in_a_row: int = IN_A_ROW,
) -> pd.Series:
    """The time that each flow needs to get its fair share, in seconds from its start; nan if it never does.

    The fair share of a window is the link's chances in it divided by the number of flows that take part in the whole of
    it: a chance serves one packet. A flow has it from the beginning of the first window on in which, and in the windows
    after it up to `in_a_row`, the flow takes part and gets at least `part` of it. So the time is known to a window's
    length. `packets` is what counted_in has of `packets_acked`, and `chances` what chances_in has."""
    count = active.sum(axis=1).to_numpy()
    is_enough = active.to_numpy() & (packets.to_numpy() * count[:, None] >= part * np.asarray(chances)[:, None])
    made = []
    for column, start_us in zip(is_enough.T, flows["start_us"]):
        runs = np.convolve(column, np.ones(in_a_row, int), "valid") if len(column) >= in_a_row else np.zeros(0)
        first = np.flatnonzero(runs == in_a_row)
        made.append((packets.index[first[0]] - start_us) / 1e6 if len(first) else np.nan)
    return pd.Series(made, index=flows.index, dtype="float64", name="fair_after_s")


# ---- the queue of the link


def waits_of(acks: pd.DataFrame, flows: pd.DataFrame) -> pd.DataFrame:
    """How long each acknowledged packet waited for its chance: the queue of the link as the packet found it.

    Columns: `flow`; `sent_us`, when it was sent; `wait_ms`, its round-trip time less the flow's delay, in milliseconds.
    A timeout has no packet. Source: `now` and `rtt_sample_us` of `shared-acks`. Errors: CcpError where a packet came
    back before the flow's delay was over, so that the acknowledgements are those of another scenario."""
    kept = acks[acks["packets_acked"] > 0]
    trips = kept["rtt_sample_us"].to_numpy().astype(np.int64)
    waits = trips - flows["delay_us"].reindex(kept["flow"]).to_numpy()
    if (waits < 0).any():
        case = kept["case"].iloc[int(np.argmax(waits < 0))]
        raise CcpError("case %s: a round-trip time is below its delay_us: it is of another scenario" % case)
    sent = kept["now"].to_numpy().astype(np.int64) - trips
    return pd.DataFrame({"flow": kept["flow"].to_numpy(), "sent_us": sent, "wait_ms": waits / 1e3})


def waits_in(waits: pd.DataFrame, edges: np.ndarray) -> pd.DataFrame:
    """The waits of the packets that all flows sent in each window, in milliseconds: `mean_ms`, `least_ms` and
    `most_ms`, nan where none was sent. A packet that is lost, or not yet acknowledged at the end, isn't in it."""
    places = np.searchsorted(edges, waits["sent_us"].to_numpy(), "right") - 1
    made = waits["wait_ms"].groupby(places).agg(["mean", "min", "max"]).reindex(range(len(edges) - 1))
    made.columns = pd.Index(["mean_ms", "least_ms", "most_ms"])
    return made.set_axis(pd.Index(edges[:-1], name="begin_us"))
