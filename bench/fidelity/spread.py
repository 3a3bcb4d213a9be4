"""How far the figures of one run depend on small changes: each cell with its queue and its delay a little changed.

`ccp` and ns-3 run in virtual time, so a case always gives the same figures, whatever hangs on which packet finds the
last place of the queue. Their noise is seen over small changes alone."""

from __future__ import annotations

import itertools
from dataclasses import replace
from pathlib import Path
from typing import Any, Dict, Iterable, Iterator, List, Sequence

import pandas as pd

from . import model, ns3, results
from .cases import PAIRS, Case, Outcome

# what is added to the queue in packets and to the delay in milliseconds
QUEUES, DELAYS_MS = range(-3, 4), range(-2, 3)
FIGURES = ["throughput_mbps", "lost", "queueing_mean_ms", "queueing_p95_ms"]
KEY = ["stack", "version", "sender", "trace", "queue", "delay_ms", "algorithm"]
PLACE = ["sender", "stack", "trace", "queue", "delay_ms"]
# of each figure the mean and the standard deviation over the changes; of CUBIC also in how many of them it waits longer
# than the Reno beside it
COLUMNS = [*KEY, "runs", *(name + end for name in FIGURES for end in ("_mean", "_sd")), "longer"]
# how many cases are run at a time: the acknowledgements of all of them are in memory
AT_ONCE = 8


def near(case: Case) -> List[Case]:
    """A case with its small changes."""
    return [
        replace(case, queue=case.queue + queue, delay_ms=case.delay_ms + delay)
        for queue, delay in itertools.product(QUEUES, DELAYS_MS)
    ]


def outcomes(stack: str, some: Sequence[Case], folder: Path, path: str | None) -> Iterator[Outcome]:
    """The runs of cases in a stack of virtual time."""
    if stack == "ccp":
        for at in range(0, len(some), AT_ONCE):
            yield from model.run(some[at : at + AT_ONCE], path)
    else:
        yield from (ns3.run(case, folder) for case in some)


def run(grid: Iterable[Case], stacks: Sequence[str], folder: Path, path: str | None) -> pd.DataFrame:
    """The means of all cases over their changes, a row a sender."""
    rows: List[Dict[str, Any]] = []
    for stack in (one for one in stacks if one != "linux"):
        version = model.identity(path) if stack == "ccp" else ns3.identity()
        for case in grid:
            for one in outcomes(stack, near(case), folder, path):
                found = results.row_of(one, version)
                of_cell = {"queue": case.queue, "delay_ms": case.delay_ms}
                rows.append({**found, **of_cell, "change": (one.case.queue, one.case.delay_ms)})
    return frame_of(pd.DataFrame(rows))


def frame_of(rows: pd.DataFrame) -> pd.DataFrame:
    """The means and standard deviations over the changes in the rows of runs."""
    grouped = rows.groupby(KEY, sort=False)
    made = grouped.size().rename("runs").to_frame()
    for name in FIGURES:
        made[name + "_mean"], made[name + "_sd"] = grouped[name].mean(), grouped[name].std()
    made = made.reset_index()
    made["longer"] = longer_of(rows).reindex(pd.MultiIndex.from_frame(made[PLACE])).to_numpy()
    return made[COLUMNS]


def longer_of(rows: pd.DataFrame) -> pd.Series:
    """In how many changes each sender of CUBIC waits longer than the Reno of its pair."""
    waits = rows.set_index([*PLACE, "change"])["queueing_mean_ms"].unstack("sender")
    found = {
        cubic: (waits[cubic] > waits[reno]).groupby(level=PLACE[1:]).sum()
        for reno, cubic in PAIRS
        if {reno, cubic} <= set(waits)
    }
    return pd.concat(found, names=PLACE[:1]).astype("Int64") if found else pd.Series(dtype="Int64")


def wait_text(frame: pd.DataFrame, stack: str, senders: Sequence[str], cell: Any) -> str:
    """The mean waits of Reno and CUBIC over the changes of a cell, with their standard deviations."""
    texts = []
    for sender in senders:
        row = row_of(frame, stack, sender, cell)
        if row is None:
            return "-"
        texts.append("%.1f ±%.1f" % (row["queueing_mean_ms_mean"], row["queueing_mean_ms_sd"]))
    return ", ".join(texts)


def row_of(frame: pd.DataFrame, stack: str, sender: str, cell: Any) -> Any:
    """The row of a sender in a cell, or None."""
    found = frame[(frame["stack"] == stack) & (frame["sender"] == sender)]
    for name, value in zip(("trace", "queue", "delay_ms"), cell):
        found = found[found[name] == value]
    return None if found.empty else found.iloc[0]
