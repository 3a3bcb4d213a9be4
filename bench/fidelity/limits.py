"""How far `ccp` may be from full TCP stacks."""

from __future__ import annotations

from dataclasses import dataclass
from typing import Any, Iterator, List, Tuple

import pandas as pd

from . import spread
from .cases import PAIRS
from .results import cells_of, medians

# Reno on the fixed link: the most distance in per cent
RENO_PERCENT = 5
RENO_FIGURES = {
    "throughput_mbps": "throughput",
    "queueing_mean_ms": "mean wait",
    "queueing_p95_ms": "95th percentile of the wait",
}
# losses of CUBIC: the greatest factor, on these traces with these queues
CUBIC_FACTOR = 1.5
CUBIC_TRACES, CUBIC_QUEUES = ("fixed", "wave"), (100, 250)
# losses of CUBIC on the fixed link, and the throughput of both on `train`: the most distance in per cent from the range
# of the reference's runs
LOSSES_PERCENT = 10
TRAIN_PERCENT = 3
ORDER = "which of Reno and CUBIC waits longer"


@dataclass(frozen=True)
class Finding:
    """A figure of a sender of `ccp` beside the reference's, in a cell, and whether the limit holds."""

    limit: str
    cell: Any
    sender: str
    value: str
    holds: bool


def reference_of(frame: pd.DataFrame) -> str:
    """The stack that `ccp` is compared with: the kernel's where it was run, else ns-3."""
    return "linux" if (frame["stack"] == "linux").any() else "ns-3"


class Figures:
    """The medians of all runs by stack, sender and cell."""

    def __init__(self, frame: pd.DataFrame) -> None:
        self.frame = medians(frame)

    def has(self, stack: str, sender: str, cell: Any) -> bool:
        return self.key(stack, sender, cell) in self.frame.index

    def of(self, stack: str, sender: str, cell: Any, name: str) -> float:
        return float(self.frame.loc[self.key(stack, sender, cell), name])

    @staticmethod
    def key(stack: str, sender: str, cell: Any) -> Any:
        return (stack, sender, *cell, "cubic" if "cubic" in sender else "reno")


def findings(frame: pd.DataFrame, reference: str, changes: pd.DataFrame | None = None) -> List[Finding]:
    """What each limit finds in each cell that has its figures; `changes` are those over small changes."""
    figures, made = Figures(frame), []
    for cell in cells_of(frame):
        made += [*reno_on_fixed(figures, cell, reference), *cubic_losses(figures, cell, reference)]
        made += [*losses_on_fixed(figures, cell, reference), *throughput_on_train(figures, cell, reference)]
        made += list(orders(figures, cell, reference))
        if changes is not None:
            made += list(orders_of_means(figures, cell, reference, changes))
    return made


def reno_on_fixed(figures: Figures, cell: Any, reference: str) -> Iterator[Finding]:
    """Reno on the fixed link: throughput, mean and 95th percentile of the wait."""
    if cell[0] != "fixed" or not figures.has(reference, "reno", cell):
        return
    for sender in ("reno", "linux-reno"):
        for name, what in RENO_FIGURES.items():
            if figures.has("ccp", sender, cell):
                ratio = figures.of("ccp", sender, cell, name) / figures.of(reference, "reno", cell, name)
                percent = 100 * (ratio - 1)
                limit = "Reno on `fixed`: %s within %d %%" % (what, RENO_PERCENT)
                yield Finding(limit, cell, sender, "%+.1f %%" % percent, abs(percent) <= RENO_PERCENT)


def cubic_losses(figures: Figures, cell: Any, reference: str) -> Iterator[Finding]:
    """The losses of CUBIC with a sender like Linux's."""
    is_meant = cell[0] in CUBIC_TRACES and cell[1] in CUBIC_QUEUES
    if not is_meant or not (figures.has(reference, "cubic", cell) and figures.has("ccp", "linux-cubic", cell)):
        return
    own, other = (figures.of(*key, cell, "lost") for key in (("ccp", "linux-cubic"), (reference, "cubic")))
    factor = max(own, other) / min(own, other) if min(own, other) else float("inf")
    limit = "CUBIC's losses within a factor of %g" % CUBIC_FACTOR
    yield Finding(limit, cell, "linux-cubic", "%.0f, %.0f" % (own, other), factor <= CUBIC_FACTOR)


def losses_on_fixed(figures: Figures, cell: Any, reference: str) -> Iterator[Finding]:
    """The losses of CUBIC on the fixed link with the sender like Linux's."""
    if cell[0] == "fixed":
        limit = "CUBIC's losses on `fixed` within %d %% of the range" % LOSSES_PERCENT
        yield from beside_range(figures, cell, reference, "cubic", ("lost", "%.0f"), (limit, LOSSES_PERCENT))


def throughput_on_train(figures: Figures, cell: Any, reference: str) -> Iterator[Finding]:
    """The throughput on the link with gaps of both senders like Linux's."""
    if cell[0] == "train":
        limit = "throughput on `train` within %d %% of the range" % TRAIN_PERCENT
        for algorithm in ("reno", "cubic"):
            shown = "throughput_mbps", "%.2f"
            yield from beside_range(figures, cell, reference, algorithm, shown, (limit, TRAIN_PERCENT))


def beside_range(
    figures: Figures, cell: Any, reference: str, algorithm: str, shown: Tuple[str, str], limit: Tuple[str, float]
) -> Iterator[Finding]:
    """A figure of the sender like Linux's beside the range of the reference's runs. `shown` is the figure and its form,
    `limit` the limit's text and the most distance in per cent."""
    sender = "linux-" + algorithm
    if not (figures.has(reference, algorithm, cell) and figures.has("ccp", sender, cell)):
        return
    name, form = shown
    ours = figures.of("ccp", sender, cell, name)
    least, most = (figures.of(reference, algorithm, cell, name + end) for end in ("_least", "_most"))
    value = "%s beside %s" % (form % ours, form % least if least == most else "%s to %s" % (form % least, form % most))
    yield Finding(limit[0], cell, sender, value, abs(distance_of(ours, least, most)) <= limit[1])


def distance_of(value: float, least: float, most: float) -> float:
    """How far a value is from a range, in per cent of its nearer end: 0 within it, below 0 under it."""
    end = min(max(value, least), most)
    return 100 * (value / end - 1) if end else float("inf") if value else 0.0


def orders(figures: Figures, cell: Any, reference: str) -> Iterator[Finding]:
    """Which of Reno and CUBIC waits longer in the mean."""
    name = "queueing_mean_ms"
    if not all(figures.has(reference, sender, cell) for sender in PAIRS[0]):
        return
    theirs = [figures.of(reference, sender, cell, name) for sender in PAIRS[0]]
    for pair in PAIRS:
        if all(figures.has("ccp", sender, cell) for sender in pair):
            ours = [figures.of("ccp", sender, cell, name) for sender in pair]
            holds = (ours[0] < ours[1]) == (theirs[0] < theirs[1])
            value = "%.1f, %.1f beside %.1f, %.1f" % (*ours, *theirs)
            yield Finding(ORDER, cell, " and ".join(pair), value, holds)


def orders_of_means(figures: Figures, cell: Any, reference: str, changes: pd.DataFrame) -> Iterator[Finding]:
    """The same of the means over small changes of the cell."""
    if not all(figures.has(reference, sender, cell) for sender in PAIRS[0]):
        return
    theirs = [figures.of(reference, sender, cell, "queueing_mean_ms") for sender in PAIRS[0]]
    for pair in PAIRS:
        rows = [spread.row_of(changes, "ccp", sender, cell) for sender in pair]
        if all(row is not None for row in rows):
            ours = [row["queueing_mean_ms_mean"] for row in rows]
            holds = (ours[0] < ours[1]) == (theirs[0] < theirs[1])
            value = "%.1f, %.1f beside %.1f, %.1f" % (*ours, *theirs)
            yield Finding(ORDER + ", means over small changes", cell, " and ".join(pair), value, holds)
