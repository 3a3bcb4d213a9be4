"""Flows that share one link: what share each gets in `ccp`, in ns-3 and by the kernel's TCP.

`ccp` and ns-3 run in virtual time, and a share of one run depends on where the last place of the queue falls. So both
run each group with small changes of queue and delays, those of `ccp metrics --orders --changes`; `ccp` also in all
orders of the flows. The kernel runs in real time, where no two runs are alike."""

from __future__ import annotations

from concurrent.futures import ThreadPoolExecutor
from dataclasses import dataclass
from pathlib import Path
from typing import Any, Dict, Iterable, Iterator, List, Sequence

import pandas as pd
from ccp_tools import orders, scenario
from ccp_tools.scenario_files import Scenario

from . import kernel, model, ns3
from .cases import SEGMENT_BYTES, Group
from .logs import read_log
from .pages import table

GROUPS = [
    Group((("reno", 20), ("cubic", 20))),
    Group((("reno", 80), ("cubic", 80))),
    Group((("reno", 20), ("reno", 80))),
    Group((("cubic", 20), ("cubic", 80))),
    Group((("reno", 20), ("cubic", 20), ("reno", 80), ("cubic", 80))),
    Group((("reno", 20), ("reno", 20), ("cubic", 20), ("cubic", 20))),
]
# of `ccp`: the length of a round, and how many small changes each order is run with, in this order and in all orders
QUANTUM_MS = 5
CHANGES, CHANGES_OF_ALL = 20, 5
# how many small changes ns-3 runs
CHANGES_OF_NS3 = 10
# `sender` is built-in, or like Linux, and `order` whether the flows are in one order or in all; of each flow its number
# in the group, from 1, and the mean and the standard deviation of its share over the runs
KEY = ["stack", "version", "sender", "order", "group", "flow", "algorithm", "delay_ms"]
COLUMNS = [*KEY, "runs", "share_mean", "share_sd", "late_mean_us"]
FORMS = {"built-in": "%s", "like Linux": "linux-%s"}


@dataclass(frozen=True)
class Shared:
    """What the flows of a group got in a run: each one's share of all, and how late a link in real time was."""

    stack: str
    version: str
    sender: str
    order: str
    group: Group
    shares: Sequence[float]
    late_mean_us: float | None = None


def shares_of(got: Sequence[float]) -> List[float]:
    return [one / sum(got) for one in got]


# ---- ccp


def scenario_of(group: Group, form: str) -> Scenario:
    """The scenario of `shared` of a group, with the senders of a form."""
    words = ["--for", "shared", "--senders", ",".join(form % algorithm for algorithm, _ in group.flows)]
    words += ["--shared", "%s:%d:%d" % (group.trace, group.queue, QUANTUM_MS), "--seconds", str(group.seconds)]
    made = scenario.make([*words, "--mss", str(SEGMENT_BYTES), "--", str(group.trace_path)])
    for case, (_, delay_ms) in zip(made["cases"], group.flows):
        case["delay_us"] = 1000 * delay_ms
    return made


def of_model(group: Group, path: str | None) -> Iterator[Shared]:
    """The runs of a group in `ccp`."""
    version = model.identity(path)
    for sender, form in FORMS.items():
        one = scenario_of(group, form)
        for order, count, changes in (("this", 1, CHANGES), ("all", 0, CHANGES_OF_ALL)):
            for run, found in orders.tables_of(orders.runs_of(one, count, changes), path):
                acked = [found.rows[run.place(flow) - 1]["acked"] for flow in range(len(group.flows))]
                yield Shared("ccp", version, sender, order, group, shares_of(acked))


# ---- the others


def of_ns3(group: Group, folder: Path) -> Iterator[Shared]:
    """The runs of a group in ns-3, with the small changes of `ccp`."""
    base = scenario_of(group, "%s")
    for change in range(1, CHANGES_OF_NS3 + 1):
        one = orders.changed(base, change)
        flows = ",".join(
            "%s:%d" % (algorithm, case["delay_us"]) for (algorithm, _), case in zip(group.flows, one["cases"])
        )
        log = folder / ("ns3-%s-%d.log" % (group.name, change))
        words = ["--trace=%s" % group.trace_path, "--queue=%d" % one["shared"]["queue"], "--flows=" + flows]
        ns3.said([*words, "--seconds=%d" % group.seconds, "--log=%s" % log], folder, group.name)
        yield Shared("ns-3", ns3.identity(), "", "this", group, shares_of(segments_in(log, group)))


def of_kernel(group: Group, folder: Path, number: int) -> Shared:
    """A run of a group by the kernel."""
    log = folder / ("linux-%s-%d.log" % (group.name, number))
    late = kernel.run_group(group, log)
    return Shared("linux", kernel.identity(), "", "this", group, shares_of(segments_in(log, group)), late)


def segments_in(log: Path, group: Group) -> List[int]:
    """How many different segments of each flow the link served before the end."""
    found = read_log(log, ["flow"])
    found = found[(found["wait_us"] >= 0) & (found["time_us"] + found["wait_us"] <= 1_000_000 * group.seconds)]
    counts = found.drop_duplicates(["flow", "sequence"]).groupby("flow").size()
    return [int(counts.get(flow, 0)) for flow in range(len(group.flows))]


def run(stacks: Sequence[str], folder: Path, runs: int, jobs: int, path: str | None) -> List[Shared]:
    """All groups in each of the stacks."""
    found: List[Shared] = []
    if "ccp" in stacks:
        found += [one for group in GROUPS for one in of_model(group, path)]
    if "ns3" in stacks:
        found += [one for group in GROUPS for one in of_ns3(group, folder)]
    if "linux" in stacks:
        kernel.build(folder)
        numbered = [(group, number) for number in range(1, runs + 1) for group in GROUPS]
        with ThreadPoolExecutor(jobs) as pool:
            found += pool.map(lambda one: of_kernel(one[0], folder, one[1]), numbered)
    return found


# ---- figures


def frame_of(found: Iterable[Shared]) -> pd.DataFrame:
    """The means over the runs, a row a flow; of the kernel each run is a row of its own, as its noise is seen then."""
    rows: List[Dict[str, Any]] = []
    for at, one in enumerate(found):
        for flow, ((algorithm, delay_ms), share) in enumerate(zip(one.group.flows, one.shares), 1):
            values: List[Any] = [one.stack, one.version, one.sender, one.order, one.group.name]
            made = dict(zip(KEY, [*values, flow, algorithm, delay_ms]))
            run = at if one.stack == "linux" else 0
            rows.append({**made, "share": share, "late_mean_us": one.late_mean_us, "run": run})
    grouped = pd.DataFrame(rows).groupby([*KEY, "run"], sort=False, dropna=False)
    columns: Dict[str, Any] = {"runs": ("share", "size"), "share_mean": ("share", "mean"), "share_sd": ("share", "std")}
    made = grouped.agg(**columns, late_mean_us=("late_mean_us", "mean")).reset_index()
    return pd.DataFrame(made[COLUMNS])


def texts_of(frame: pd.DataFrame) -> str:
    """The shares of a group in per cent; several runs of the kernel one after another. Of means the greatest standard
    deviation of a flow's share comes after them."""
    if frame.empty:
        return "-"
    runs = [one for _, one in frame.groupby((frame["flow"] == 1).cumsum())]
    shown = "; ".join(", ".join("%.0f" % (100 * share) for share in one["share_mean"]) for one in runs)
    spread = frame["share_sd"].max()
    return shown if pd.isna(spread) else "%s (±%.0f)" % (shown, 100 * spread)


def shares_table(frame: pd.DataFrame) -> str:
    """The shares of all groups, a row each."""
    ways = [("ccp", sender, order) for sender in FORMS for order in ("this", "all")]
    heads = ["%s, %s" % (sender, {"this": "this order", "all": "all orders"}[order]) for _, sender, order in ways]
    ways += [("ns-3", "", "this"), ("linux", "", "this")]
    rows = []
    for name in dict.fromkeys(frame["group"]):
        of_group = frame[frame["group"] == name]
        texts = []
        for stack, sender, order in ways:
            is_meant = (of_group["stack"] == stack) & (of_group["sender"].fillna("") == sender)
            texts.append(texts_of(of_group[is_meant & (of_group["order"] == order)]))
        flows = of_group[["flow", "algorithm", "delay_ms"]].drop_duplicates()
        rows.append([", ".join("%s %d" % (one.algorithm, one.delay_ms) for one in flows.itertuples()), *texts])
    return table(["Flows", *heads, "ns-3", "Linux"], rows)
