"""A hunt: a search, its find made small, and the question whether the find holds on links nearby."""
from __future__ import annotations

import time
from dataclasses import dataclass, field, replace
from pathlib import Path
from statistics import median
from typing import Callable, Dict, List, Sequence, Tuple

from .. import program as programs
from ..errors import UsageError
from . import search, shrink
from .goals import GOALS, NOTHING, WINDOWS, Goal, best_of, scored
from .links import Link, LinkClass
from .runs import Figures, Flow, Measured, Outside, Runs, Shared, Tables, flow_of
from .search import Found, Rated, Scores

# the candidates that are made small where the first find is a coincidence
MOST_STEADY = 3
SEARCHES: Dict[str, Callable[..., None]] = {
    "population": search.population,
    "chance": search.at_random,
    "grid": search.grid,
}


@dataclass(frozen=True)
class Effort:
    """How a hunt goes: at most `links` links are tried, and `minutes` where that isn't None, by a `seed`. A smaller
    link keeps the share `keep` of the score. A find has to hold on `holds` of `near` links near it."""

    links: int = 1000
    seed: int = 1
    minutes: float | None = None
    keep: float = 0.8
    near: int = 20
    holds: int = 12
    search: str = "population"


@dataclass
class Hunted:
    """What a hunt found. `best` is the worst link for the sender, `small` the smallest link that was made of it (both
    None where no score is worth reporting), `shrink_links` how many were tried for that, `near` the scores of links
    near it, sorted, and `holds` on how many of them the find holds. `is_found` says whether it is one: a find on too
    few of them is a coincidence."""

    found: Found
    best: Rated | None = None
    small: Rated | None = None
    shrink_links: int = 0
    near: List[float] = field(default_factory=list)
    holds: int = 0
    is_found: bool = False


# ---- what is run


@dataclass
class Quarry:
    """What is hunted: a goal, a sender, its references, and what runs them."""

    goal: Goal
    of: LinkClass
    against: str
    flows: List[Flow]
    runs: Runs

    def scores(self, links: Sequence[Link], least: float = NOTHING) -> List[float]:
        """The scores of links, in their order. A score below `least` may be given as NOTHING."""
        wanted = links
        if least > NOTHING and self.goal.is_less_beside and len(self.flows) > 2:
            # beside a reference a score is at most that without one, and the references take most of the time
            alone = self.runs.figures(links, 1)
            wanted = [link for link, figures in zip(links, alone) if scored(self.goal, link, figures) >= least]
        every = dict(zip(wanted, self.runs.figures(wanted) if wanted else []))
        return [scored(self.goal, link, every[link]) if link in every else NOTHING for link in links]

    def shown(self, link: Link) -> List[Tuple[Flow, Figures]]:
        """The sender on a link with its figures, and then the reference that counts, or all flows of a shared link."""
        figures = self.runs.figures([link])[0]
        pairs = list(zip(self.flows, figures))
        if self.goal.runs == "shared" or len(pairs) < 2:
            return pairs
        return [pairs[0], pairs[1 + best_of(figures[1:])]]


def quarry_of(
    sender: str | Flow,
    goal: Goal,
    of: LinkClass,
    against: str | None = None,
    *,
    begin_us: int = 0,
    path: Path | None = None,
    workers: int = 1,
    portus: Sequence[Tuple[str, str]] = (),
) -> Quarry:
    """What is hunted, where the sender and the reference are words. The reference is a sender, `windows` (the best
    constant window that loses at most 2 %), `window:N`, or `capacity`. A UsageError where they don't go together."""
    path = path or programs.find_program()
    flow = sender if isinstance(sender, Flow) else flow_of(sender, path, portus)
    against = goal.against if against is None else against
    is_shared = goal.runs == "shared"
    if is_shared and against in ("windows", "capacity"):
        raise UsageError("--against %s: another sender is expected, which shares the link" % against)
    if goal.runs == "tables" and against:
        raise UsageError("--against %s: a fault is one whatever others do" % against)
    words = ["window:%d" % size for size in WINDOWS] if against == "windows" else [against]
    others = [] if against in ("", "capacity") else [flow_of(word, path, portus) for word in words]
    if is_shared and not others:
        others = [replace(flow, label=(flow.label + "-2")[-32:])]
    flows = [flow, *others]
    labels = [one.label for one in flows]
    if len(set(labels)) < len(labels):
        raise UsageError("two senders have the label %s: LABEL=.. gives another" % labels[0])
    return Quarry(goal, of, against, flows, runs_of(goal, flows, of, path, workers, begin_us))


def runs_of(goal: Goal, flows: List[Flow], of: LinkClass, path: Path, workers: int, begin_us: int) -> Runs:
    """What runs the links of a goal."""
    outside = [one.label for one in flows if one.file]
    if outside and (goal.runs != "measured" or outside != [flows[0].label]):
        what = "an agent outside is hunted alone, for figures of a link of its own"
        raise UsageError("%s is an agent outside: %s" % (outside[-1], what))
    if outside:
        return Outside(flows, of, path, workers, begin_us)
    if goal.runs == "measured":
        return Measured(flows, of, path, workers, begin_us)
    return (Tables if goal.runs == "tables" else Shared)(flows, of, path, workers)


# ---- the hunt


def hunt(
    sender: str | Flow | None = None,
    goal: str | Goal = "low-throughput",
    of: LinkClass = LinkClass(),
    *,
    score: Callable[[Sequence[Link]], List[float]] | None = None,
    least: float = 0.0,
    effort: Effort = Effort(),
    known: Sequence[Link] = (),
    against: str | None = None,
    program: str | Path | None = None,
    workers: int = 1,
) -> Hunted:
    """Hunts for a link of a class on which a sender, a word as --senders takes one, is bad. In place of a sender and a
    goal `score` is any function from a list of links to their scores, higher where it is worse, as
    learned.score_of makes one of a policy; scores above `least` are worth reporting. `known` links are tried first.
    Errors: CcpError."""
    if score is not None:
        name = goal if isinstance(goal, str) else goal.name
        given = score

        def scores(links: Sequence[Link], least: float = NOTHING) -> List[float]:
            return given(links)

        return hunted(Goal(name, lambda link, one, other: 0.0, least), of, scores, effort, known)
    if sender is None:
        raise UsageError("hunt: a sender or a score is expected")
    one = GOALS[goal] if isinstance(goal, str) else goal
    quarry = quarry_of(sender, one, of, against, path=programs.find_program(program), workers=workers)
    return hunted(one, of, quarry.scores, effort, known)


def hunted(
    goal: Goal, of: LinkClass, score: Scores, effort: Effort, known: Sequence[Link] = (), *, stops: bool | None = None
) -> Hunted:
    """Searches, makes the find small, and asks the links near it. With `stops` the search ends at the first link that
    is worth reporting; without it, where the goal keeps no share of the score."""
    ends_at = None if effort.minutes is None else time.monotonic() + 60 * effort.minutes
    is_first = not goal.keeps if stops is None else stops
    fresh = search.FRESH_ON_PLAINS if goal.runs == "tables" else search.FRESH
    way = search.Search(of, score, effort.links, effort.seed, goal.found if is_first else float("inf"), ends_at, fresh)
    SEARCHES[effort.search](way, known)
    made = Hunted(way.found)
    if not way.found.best or way.found.best[0].score < goal.found:
        return made
    made.best = way.found.best[0]
    made_small(made, made.best, goal, of, score, effort)
    if not made.is_found and goal.keeps:
        steadier(made, goal, of, score, effort)
    return made


def made_small(made: Hunted, best: Rated, goal: Goal, of: LinkClass, score: Scores, effort: Effort) -> None:
    """Makes a link small, and asks the links near the small one."""
    small, made.shrink_links = shrink.shrunk(best, of, score, least_of(goal, best, effort))
    ask_near(made, small, goal, score, effort)


def least_of(goal: Goal, best: Rated, effort: Effort) -> float:
    """The least score of a smaller link."""
    return max(goal.found, effort.keep * best.score) if goal.keeps else goal.found


def held_from(goal: Goal, score: float) -> float:
    """The score from which on a near link counts as one on which a find holds: half of the find's."""
    return max(goal.found, score / 2) if goal.keeps else goal.found


def steadier(made: Hunted, goal: Goal, of: LinkClass, score: Scores, effort: Effort) -> None:
    """Where the find is a coincidence: takes the best candidate that holds on links near it, and makes it small by a
    score that links near it have too, where the small one holds as well. What was found before stays where there is no
    such candidate."""

    def steady(links: Sequence[Link], least: float = NOTHING) -> List[float]:
        """The median of the scores of each link and of two near it."""
        every = score([one for link in links for one in (link, *shrink.near_links(link, 2))], least)
        return [median(every[at : at + 3]) for at in range(0, len(every), 3)]

    candidates = list(dict.fromkeys(one.link for one in (*made.found.best, *made.found.simple)))
    rated = [Rated(value, link) for value, link in zip(steady(candidates), candidates)]
    made.shrink_links += 3 * len(candidates)
    for best in sorted(rated, key=lambda one: -one.score)[:MOST_STEADY]:
        other = Hunted(made.found, Rated(score([best.link])[0], best.link))
        ask_near(other, other.best or best, goal, score, effort)
        made.shrink_links += effort.near + 1
        if best.score >= goal.found and other.is_found:
            small, tried = shrink.shrunk(best, of, steady, least_of(goal, best, effort), shrink.MOST_TRIED // 2)
            made.shrink_links += 3 * tried
            made.best, made.small, made.near, made.holds = other.best, other.small, other.near, other.holds
            ask_near(other, Rated(score([small.link])[0], small.link), goal, score, effort)
            if other.is_found:
                made.small, made.near, made.holds = other.small, other.near, other.holds
            made.is_found = True
            return


def ask_near(made: Hunted, small: Rated, goal: Goal, score: Scores, effort: Effort) -> None:
    """Runs the links near a small one, and sees whether it holds there."""
    made.small, made.near = small, shrink.near_scores(small.link, score, effort.near)
    made.holds = sum(value >= held_from(goal, small.score) for value in made.near)
    made.is_found = made.holds >= min(effort.holds, effort.near)
