"""Losses by chance: the throughput of each sender, over seeds."""

from __future__ import annotations

from typing import Any, Iterator, List, Tuple

import pandas as pd
from ccp_tools import metrics

from .cases import ALGORITHMS
from .limits import Finding
from .pages import SENDERS, table
from .results import COLUMNS, OF_CHANCE

COLUMNS_OF_CHANCE = [*COLUMNS, *OF_CHANCE]
FIGURE = "throughput_mbps"
HEADS = ["built-in", "like Linux", "ns-3", "Linux"]
# the cells of a table: what the algorithms of one have in common
CELL = ["rate", "delay_ms"]
# how far the senders like Linux's may be from Linux: their throughput in per cent, CUBIC's lead in points
PERCENT, POINTS = 5, 4


def mean_text(values: pd.Series, form: str) -> str:
    """A mean over seeds with half of its 95 % interval, or a - where there is none."""
    if values.empty:
        return "-"
    group = metrics.groups(pd.DataFrame({"all": "", FIGURE: values}), ["all"], [FIGURE]).iloc[0]
    half = group[FIGURE + "_ci95"]
    return form % group[FIGURE + "_mean"] + ("" if pd.isna(half) else " ±" + form % half)


def figures_of(frame: pd.DataFrame, cell: Tuple[Any, ...], stack: str, sender: str) -> pd.Series:
    """The throughput of a sender in a cell, by seed: of several runs their mean."""
    rows = frame[(frame["stack"] == stack) & (frame["sender"] == sender)]
    for name, value in zip(CELL, cell):
        rows = rows[rows[name] == value]
    return rows.groupby("seed")[FIGURE].mean()


def throughput(frame: pd.DataFrame) -> str:
    """Means over seeds, a row a rate, delay and algorithm."""
    rows: List[List[str]] = []
    for cell in frame[CELL].drop_duplicates().itertuples(index=False):
        for algorithm in ALGORITHMS:
            found = [figures_of(frame, cell, stack, form % algorithm) for stack, form in SENDERS]
            rows.append([percent(cell[0]), str(cell[1]), algorithm, *(mean_text(one, "%.2f") for one in found)])
    return table(["lost by chance", "ms", "sender", *HEADS], rows)


def leads(frame: pd.DataFrame) -> str:
    """By how many per cent CUBIC is ahead of Reno, seed by seed, a row a rate and delay."""
    rows: List[List[str]] = []
    for cell in frame[CELL].drop_duplicates().itertuples(index=False):
        texts = []
        for stack, form in SENDERS:
            reno, cubic = (figures_of(frame, cell, stack, form % algorithm) for algorithm in ALGORITHMS)
            texts.append(mean_text((100 * (cubic / reno - 1)).dropna(), "%+.0f").replace("±+", "±"))
        rows.append([percent(cell[0]), str(cell[1]), *texts])
    return table(["lost by chance", "ms", *HEADS], rows)


def findings(frame: pd.DataFrame, reference: str) -> Iterator[Finding]:
    """The throughput of the senders like Linux's beside the reference's, and CUBIC's lead over Reno beside its."""
    for cell in frame[CELL].drop_duplicates().itertuples(index=False):
        place = "%s lost" % percent(cell[0]), int(frame["queue"].iloc[0]), cell[1]
        ours = [figures_of(frame, cell, "ccp", "linux-" + algorithm) for algorithm in ALGORITHMS]
        theirs = [figures_of(frame, cell, reference, algorithm) for algorithm in ALGORITHMS]
        if any(one.empty for one in (*ours, *theirs)):
            continue
        for algorithm, own, other in zip(ALGORITHMS, ours, theirs):
            apart = 100 * (own.mean() / other.mean() - 1)
            limit = "losses by chance: throughput within %d %%" % PERCENT
            yield Finding(limit, place, "linux-" + algorithm, "%+.1f %%" % apart, abs(apart) <= PERCENT)
        lead, real = (100 * (cubic / reno - 1).mean() for reno, cubic in (ours, theirs))
        limit = "losses by chance: CUBIC's lead of one sign and within %d points" % POINTS
        holds = (lead < 0) == (real < 0) and abs(lead - real) <= POINTS
        yield Finding(limit, place, "linux-reno and linux-cubic", "%+.1f beside %+.1f %%" % (lead, real), holds)


def percent(rate: float) -> str:
    """A share in per cent."""
    return "%g %%" % (100 * rate)
