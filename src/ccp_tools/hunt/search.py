"""The search: a population that begins with simple links, and what it has to beat: links by chance, and a grid."""
from __future__ import annotations

import itertools
import random
import time
from dataclasses import dataclass, field, replace
from typing import Callable, Iterable, List, Sequence, Tuple

from . import drawing
from .links import Link, LinkClass

# the scores of links, in their order; a second number is the least one that matters
Scores = Callable[..., List[float]]
# links of a generation, and those that stay
SIZE, KEPT = 48, 8
# the share of new links in a generation, and where the score is no hill to climb
FRESH, FRESH_ON_PLAINS = 0.1, 0.5
# links of the grid that a long hunt begins with, and how long it has to be
FROM_GRID, LONG = 150, 400
# generations without a better link after which the population begins anew
MOST_STALE = 12
# the links that may become the find: of all, and of those of the grid
MOST_BEST, MOST_SIMPLE = 5, 15


@dataclass(frozen=True)
class Rated:
    """A link with its score."""

    score: float
    link: Link


@dataclass
class Found:
    """What a search found: the best links, best first, and the best of those that are simple from the beginning; how it
    came to them, as pairs of links tried and a better score; and how many links were tried."""

    best: List[Rated] = field(default_factory=list)
    simple: List[Rated] = field(default_factory=list)
    steps: List[Tuple[int, float]] = field(default_factory=list)
    links: int = 0


class Search:
    """A search that is under way. It ends after `most_links`, at the time `ends_at` of the monotonic clock, or at a
    link with the score `stop`. `fresh` is the share of a generation that is drawn anew."""

    def __init__(
        self,
        of: LinkClass,
        score: Scores,
        most_links: int,
        seed: int,
        stop: float,
        ends_at: float | None = None,
        fresh: float = FRESH,
    ) -> None:
        self.fresh = fresh
        self.of, self.score, self.most_links, self.stop, self.ends_at = of, score, most_links, stop, ends_at
        self.draw, self.found = random.Random(seed), Found()

    def rate(self, links: Iterable[Link]) -> List[Rated]:
        """Links with their scores, as many as may still be tried."""
        some = list(links)[: self.most_links - self.found.links]
        rated = [Rated(value, link) for value, link in zip(self.score(some), some)] if some else []
        self.found.links += len(rated)
        before = self.found.best[0].score if self.found.best else None
        # a later link of an equal score doesn't replace one
        every = {one.link: one for one in [*reversed(rated), *reversed(self.found.best)]}
        self.found.best = sorted(reversed(list(every.values())), key=lambda one: -one.score)[:MOST_BEST]
        if self.found.best and (before is None or self.found.best[0].score > before):
            self.found.steps.append((self.found.links, self.found.best[0].score))
        return rated

    def is_over(self) -> bool:
        """Whether the search has ended."""
        is_late = self.ends_at is not None and time.monotonic() >= self.ends_at
        is_found = bool(self.found.best) and self.found.best[0].score >= self.stop
        return is_late or is_found or self.found.links >= self.most_links


def population(search: Search, known: Sequence[Link] = ()) -> None:
    """A population: the better links stay and have children. The known ones come first, then simple ones. After some
    generations without a better link all begin anew but the best, so that a search doesn't end on the first hill."""
    of, draw = search.of, search.draw
    rated = search.rate(known) if known else []
    if search.is_over():
        return
    rated += search.rate([*drawing.simplest(of), *(drawing.drawn(of, draw) for _ in range(SIZE))])
    if search.most_links > LONG and not search.is_over():
        by_hand = list(dict.fromkeys(drawing.grid(of)))
        plain = search.rate(draw.sample(by_hand, min(FROM_GRID, len(by_hand))))
        search.found.simple = sorted(plain, key=lambda one: -one.score)[:MOST_SIMPLE]
        rated += plain
    stale = 0
    while not search.is_over():
        rated = sorted(rated, key=lambda one: -one.score)[:SIZE]
        before = search.found.best[0].score
        rated = rated[:KEPT] + search.rate(children(of, draw, rated, search.fresh))
        stale = 0 if search.found.best[0].score > before else stale + 1
        if stale >= MOST_STALE:
            rated, stale = [*search.rate(drawing.drawn(of, draw) for _ in range(SIZE)), search.found.best[0]], 0


def children(of: LinkClass, draw: random.Random, rated: Sequence[Rated], fresh: float) -> List[Link]:
    """The links of the next generation: a share of new ones, crossed ones, and changed ones. A parent is the best of
    three."""

    def parent() -> Link:
        return rated[min(draw.sample(range(len(rated)), min(3, len(rated))))].link

    made: List[Link] = []
    while len(made) < SIZE - KEPT:
        kind = draw.random()
        if kind < fresh:
            made.append(drawing.drawn(of, draw))
        elif kind < fresh + (1 - fresh) / 3:
            one, other = parent(), parent()
            is_slotted = len(one.pieces) == len(other.pieces) == of.slots
            child = drawing.crossed(of, draw, one, other) if is_slotted else slotted(of, draw, one)
            made.append(drawing.mutated(of, draw, child))
        else:
            made.append(drawing.mutated(of, draw, slotted(of, draw, parent())))
    return made


def slotted(of: LinkClass, draw: random.Random, link: Link) -> Link:
    """The link with a trace of the class's slots, as drawn links have it; that of a corpus may have other pieces."""
    if of.base or len(link.pieces) == of.slots and all(ms == of.slot_ms for ms, _ in link.pieces):
        return link
    edges = [link.chances(1000 * of.slot_ms * at) for at in range(of.slots + 1)]
    counts = [after - before for before, after in zip(edges, edges[1:])]
    return drawing.repaired(of, draw, replace(link, pieces=drawing.as_pieces(of, counts)))


def at_random(search: Search, known: Sequence[Link] = ()) -> None:
    """Links at random, each independent of the others."""
    search.rate(known)
    while not search.is_over():
        search.rate(drawing.drawn(search.of, search.draw) for _ in range(SIZE))


def grid(search: Search, known: Sequence[Link] = ()) -> None:
    """What somebody would try by hand, over queues and delays."""
    search.rate(known)
    links = drawing.grid(search.of)
    while not search.is_over():
        part = list(itertools.islice(links, SIZE))
        if not part:
            return
        search.rate(part)
