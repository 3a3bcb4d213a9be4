"""What a hunt looks for: a score of a link, higher where the sender is worse."""
from __future__ import annotations

import math
import re
from dataclasses import dataclass
from typing import Callable, Dict, List, Sequence

from ..arguments import one_of, shown
from ..errors import UsageError
from .links import Link
from .runs import Figures

# the constant windows of the reference, in segments, and the share of losses with which one still counts
WINDOWS = (8, 16, 32, 64, 128, 256)
MOST_LOSSES = 0.02
NOTHING = -math.inf
Score = Callable[[Link, Figures, "Figures | None"], float]


@dataclass(frozen=True)
class Goal:
    """`score` takes a link, the figures of the sender there, and those of the reference or None. `found` is the least
    score that is worth reporting; `against` the reference where none is asked for. `keeps` is whether a smaller link
    has to keep a share of the score, and not only `found`; `is_less_beside` whether a score beside a reference is at
    most that without one. `runs` is what runs the links: measured, tables or shared."""

    name: str
    score: Score
    found: float
    against: str = ""
    runs: str = "measured"
    keeps: bool = True
    is_less_beside: bool = False


def missed(link: Link, sender: Figures, reference: Figures | None) -> float:
    """The share of the reference's utilization that the sender doesn't get; without one, of the link's capacity."""
    most = (reference["utilization"] or 0) if reference else 1
    return 1 - (sender["utilization"] or 0) / most if most else 0.0


def more(name: str) -> Score:
    """By how much a figure is above that of the reference."""

    def score(link: Link, sender: Figures, reference: Figures | None) -> float:
        if sender[name] is None:
            return NOTHING
        return float(sender[name]) - float((reference or {}).get(name) or 0)

    return score


def stalled(link: Link, sender: Figures, reference: Figures | None) -> float:
    """The share of the span that the sender spent in timeouts."""
    return float(sender.get("stalled") or 0)


def unfair(link: Link, sender: Figures, reference: Figures | None) -> float:
    """How far the share of the first flow is below one half, from 0 to 1."""
    return 1 - 2 * float(sender["share"])


def faulty(link: Link, sender: Figures, reference: Figures | None) -> float:
    """1 where the program faults; else, to break ties, how near to overflow the longest round trip and the greatest
    window may be."""
    if sender["faults"]:
        return 1.0
    longest_us = link.delay_us + 1000 * link.period_ms * (link.queue + 1) / link.total
    return (math.log2(1 + longest_us) + math.log2(1 + sender["peak"])) / 256


GOALS: Dict[str, Goal] = {
    goal.name: goal
    for goal in (
        Goal("low-throughput", missed, 0.05, "windows", is_less_beside=True),
        Goal("high-delay", more("queueing_mean_ms"), 1.0),
        Goal("losses", more("loss_rate"), 0.001),
        Goal("stalls", stalled, 0.001),
        Goal("unfair", unfair, 0.1, runs="shared"),
        Goal("fault", faulty, 1.0, runs="tables", keeps=False),
    )
}

# the figures of a property, with what runs the links
ASSERTED = dict.fromkeys(
    "utilization throughput_mbps loss_rate queueing_mean_ms rtt_mean_ms power timeouts".split(), "measured"
)
ASSERTED.update(faults="tables", share="shared")


def asserted(text: str) -> Goal:
    """The goal of a property that each link should have, as `utilization>=0.8`: a link that breaks it. A UsageError
    where the text is none."""
    found = re.fullmatch(r"\s*([a-z_0-9]+)\s*(>=|<=)\s*([0-9]{0,15}\.?[0-9]{1,15})\s*", text)
    if not found:
        raise UsageError("--assert %s: FIGURE>=NUMBER or FIGURE<=NUMBER is expected" % shown(text))
    name, bound = found[1], float(found[3])
    if name not in ASSERTED:
        raise UsageError("--assert %s: the figures are %s" % (shown(text), one_of(list(ASSERTED))))
    sign = 1 if found[2] == "<=" else -1

    def score(link: Link, sender: Figures, reference: Figures | None) -> float:
        return NOTHING if sender[name] is None else sign * (float(sender[name]) - bound)

    # what breaks it is above 0, as far as figures are exact
    return Goal(name + found[2] + found[3], score, 1e-12, runs=ASSERTED[name], keeps=False)


def best_of(references: Sequence[Figures]) -> int:
    """The number of the reference that gets most through among those that lose little; that of the one that loses least
    where none does."""
    numbers = range(len(references))
    good = [at for at in numbers if (references[at]["loss_rate"] or 0) <= MOST_LOSSES]
    if good:
        return max(good, key=lambda at: (references[at]["utilization"] or 0, -at))
    return min(numbers, key=lambda at: (references[at]["loss_rate"], at))


def scored(goal: Goal, link: Link, figures: List[Figures]) -> float:
    """The score of a link, where `figures` are those of the sender and then those of its references."""
    if goal.runs == "shared" or len(figures) == 1:
        return goal.score(link, figures[0], None)
    return goal.score(link, figures[0], figures[1 + best_of(figures[1:])])
