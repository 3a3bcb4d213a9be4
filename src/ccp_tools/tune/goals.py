"""What tuning looks for: the goal of a link, floors that have to hold, and the rating of a choice of numbers."""
from __future__ import annotations

import argparse
import math
import re
from dataclasses import dataclass
from typing import Callable, Dict, List, NamedTuple, Sequence

from ..arguments import one_of, shown
from ..probe import MeanFigures

# a smaller figure counts as this one, so that its logarithm is there
LEAST = 1e-9


def logarithm(value: float | None) -> float:
    """The natural logarithm of a figure."""
    return math.log(max(LEAST, value or 0))


def utility(one: MeanFigures) -> float:
    """log throughput less log delay, as Remy has it (Winstein and Balakrishnan, SIGCOMM 2013), less a price of
    losses."""
    if not one.throughput_mbps:
        return logarithm(0)
    return logarithm(one.throughput_mbps) - logarithm(one.rtt_mean_ms) - 10 * (one.loss_rate or 0)


def calm(one: MeanFigures) -> float:
    """The logarithm of one over 1 ms more than the mean wait."""
    return logarithm(0) if one.queueing_mean_ms is None else -math.log(1 + one.queueing_mean_ms)


# each goal of a link on a logarithmic scale, so that a difference is a ratio, and a link of 100 Mbit/s counts as much
# as one of 1
GOALS: Dict[str, Callable[[MeanFigures], float]] = {
    "power": lambda one: logarithm(one.power),
    "throughput": lambda one: logarithm(one.throughput_mbps),
    "utility": utility,
    "wait": calm,
}
# the goals that give up all else
BOUNDLESS = ("throughput", "wait")
FLOORS = "utilization throughput_mbps loss_rate queueing_mean_ms rtt_mean_ms power timeouts".split()


@dataclass(frozen=True)
class Floor:
    """A bound of a figure: at least `bound`, or at most where `is_most`. `text` is how the user wrote it."""

    text: str
    figure: str
    bound: float
    is_most: bool

    def short(self, one: MeanFigures) -> float:
        """By which share of the bound a link's figure is on the wrong side; 0 where it holds. A figure that isn't there
        is far from it."""
        value = getattr(one, self.figure)
        if value is None:
            return 1.0
        missing = value - self.bound if self.is_most else self.bound - value
        return max(0.0, missing) / max(self.bound, LEAST)


def floor(text: str) -> Floor:
    """A parser of --floor: FIGURE>=N or FIGURE<=N."""
    found = re.fullmatch(r"\s*([a-z_0-9]+)\s*(>=|<=)\s*([0-9]{0,15}\.?[0-9]{1,15})\s*", text)
    if not found:
        raise argparse.ArgumentTypeError("%s: FIGURE>=NUMBER or FIGURE<=NUMBER is expected" % shown(text))
    if found[1] not in FLOORS:
        raise argparse.ArgumentTypeError("%s: the figures are %s" % (shown(text), one_of(FLOORS)))
    return Floor("".join(found.groups()), found[1], float(found[3]), found[2] == "<=")


class Rating(NamedTuple):
    """How good numbers are: the greater, the better. `short` is by how much floors are missed, as a number of at most
    0; `score` the mean of the goal over the links."""

    short: float
    score: float


FAULTY = Rating(-math.inf, -math.inf)


def rating(found: Sequence[MeanFigures], goal: str, floors: Sequence[Floor]) -> Rating:
    """The rating of what a program does on each link. One that faults is worse than any other."""
    if any(one.faults for one in found):
        return FAULTY
    short = sum(one.short(link) for link in found for one in floors)
    return Rating(-round(short, 9), sum(map(GOALS[goal], found)) / len(found))


def gains(goal: str, before: Sequence[MeanFigures], after: Sequence[MeanFigures]) -> List[float]:
    """The ratio of the goal on each link, above 1 where it is better."""
    return [math.exp(GOALS[goal](new) - GOALS[goal](old)) for old, new in zip(before, after)]


def geometric_mean(ratios: Sequence[float]) -> float:
    """The geometric mean of ratios above 0."""
    return math.exp(sum(map(math.log, ratios)) / len(ratios))
