"""Makes a found link small, and asks how much it hangs on a coincidence.

What can be left out or made plain is, as long as the score stays above a bound. Simple traces come first: nobody would
come to "one rate, then another" by leaving things out of eighty slots."""
from __future__ import annotations

import itertools
import math
import random
from dataclasses import replace
from typing import Callable, Iterable, Iterator, List, Sequence, Tuple

from ..tables import LIMITS
from .links import MBPS, Link, LinkClass
from .search import Rated, Scores

Step = Callable[[Link, LinkClass], Iterable[Link]]
# the links of a step that are tried at once, cheapest first
AT_ONCE = 32
# the most links that are tried in all
MOST_TRIED = 600
# a near link differs by at most this share in lengths and rates, these packets and this time
NEAR_SHARE, NEAR_PACKETS, NEAR_US = 0.1, 3, 3000


def cost(link: Link, of: LinkClass) -> Tuple[int, int, int]:
    """How much there is to say of a link: its losses and pieces, the digits of its numbers, its length. Near a base
    trace the slots that differ count in place of the pieces."""
    numbers = [link.queue, thousands(link.delay_us), thousands(link.timeout_us), link.lag, link.mark, *link.losses]
    numbers += [link.mss] if link.mss != Link.mss else []
    if of.base:
        changed = sum(one != other for one, other in zip(link.pieces, of.base))
        return (len(link.losses) + changed, digits(numbers), 0)
    for ms, count in link.pieces:
        numbers += [ms, count * 100 // ms]
    return (len(link.losses) + len(link.pieces), digits(numbers), link.period_ms)


def thousands(us: int) -> int:
    """Microseconds as milliseconds, where they are whole."""
    return us // 1000 if us % 1000 == 0 else us


def digits(numbers: Sequence[int]) -> int:
    """The digits of numbers, without zeros at their ends."""
    return sum(len(str(number).rstrip("0")) for number in numbers)


# ---- steps


def plain_traces(link: Link, of: LinkClass) -> Iterator[Link]:
    """One rate, or two in turn, in place of the trace, with its own mean rate and that of the class."""
    middle = math.sqrt(of.rate_mbps[0] * of.rate_mbps[1])
    is_narrow = of.rate_mbps[1] < 1.2 * of.rate_mbps[0]
    for mean in [round(middle) or middle, *([] if is_narrow else [link.mbps])]:
        if round(1000 * mean / MBPS):
            yield replace(link, pieces=((1000, round(1000 * mean / MBPS)),))
        for one, other in itertools.product((50, 100, 200, 500, 1000, 2000), repeat=2):
            for share in (0.0, 0.05, 0.2, 0.5):
                total, slow = round(mean * (one + other) / MBPS), round(share * mean * one / MBPS)
                if total > slow:
                    yield replace(link, pieces=((one, slow), (other, total - slow)))


def without_losses(link: Link, of: LinkClass) -> Iterator[Link]:
    """Fewer losses: none, halves, quarters, each one."""
    size = len(link.losses)
    while size:
        for begin in range(0, len(link.losses), size):
            yield replace(link, losses=link.losses[:begin] + link.losses[begin + size :])
        size //= 2


def merged(link: Link, of: LinkClass) -> Iterator[Link]:
    """Fewer pieces: neighbours as one of their mean rate."""
    pieces, size = link.pieces, len(link.pieces)
    while size > 1:
        for begin in range(0, len(pieces) - 1, max(1, size // 2)):
            part = pieces[begin : begin + size]
            if len(part) > 1:
                one = (sum(ms for ms, _ in part), sum(count for _, count in part))
                yield replace(link, pieces=pieces[:begin] + (one,) + pieces[begin + size :])
        size = size // 2 if size > 2 else 1


def without_pieces(link: Link, of: LinkClass) -> Iterator[Link]:
    """A shorter trace: pieces left out, also with the mean rate kept by those that stay; or all of them shorter."""
    pieces, size = link.pieces, len(link.pieces) // 2
    while size:
        for begin in range(0, len(pieces), size):
            left = pieces[:begin] + pieces[begin + size :]
            yield replace(link, pieces=left)
            total, ms = sum(count for _, count in left), sum(ms for ms, _ in left)
            if total and ms:
                factor = link.mbps * ms / MBPS / total
                yield replace(link, pieces=tuple((ms, round(count * factor)) for ms, count in left))
        size //= 2
    for factor in (0.25, 0.5, 0.75):
        yield replace(link, pieces=tuple((max(1, round(ms * factor)), round(count * factor)) for ms, count in pieces))


def rounder_pieces(link: Link, of: LinkClass) -> Iterator[Link]:
    """Pieces whose lengths and rates are rounder. What is taken of a rate is also given to the others."""
    for at, (ms, count) in enumerate(link.pieces):
        for new_ms in rounder(ms):
            yield with_piece(link, at, (new_ms, round(count * new_ms / ms)))
        for tenths in (0, *rounder(max(1, round(10 * MBPS * count / ms)))):
            new = round(tenths / 10 * ms / MBPS)
            yield with_piece(link, at, (ms, new))
            rest = link.total - count
            if rest:
                factor = (link.total - new) / rest
                scaled = tuple((other, max(0, round(some * factor))) for other, some in link.pieces)
                yield with_piece(replace(link, pieces=scaled), at, (ms, new))


def with_piece(link: Link, at: int, piece: Tuple[int, int]) -> Link:
    """The link with another piece at a place."""
    return replace(link, pieces=link.pieces[:at] + (piece,) + link.pieces[at + 1 :])


def rounder(value: int) -> List[int]:
    """Numbers near a value that have fewer digits."""
    made: List[int] = []
    for count in (1, 2, 3):
        unit = 10 ** max(0, len(str(value)) - count)
        made += [near for near in (value // unit * unit, -(-value // unit) * unit) if near > 0 and near != value]
    return list(dict.fromkeys(made))


def plainer_numbers(link: Link, of: LinkClass) -> Iterator[Link]:
    """Rounder numbers, those that most links have, and the ends of their ranges; losses of rounder packets."""
    for name in ("queue", "delay_us", "timeout_us", "lag", "mss", "mark"):
        value, usual = getattr(link, name), getattr(Link, name, None)
        for new in [*([] if usual is None else [usual]), *rounder(value), *of.range_of(name, link)]:
            if new != value:
                yield of.fitted(replace(link, **{name: new}))
    for at, number in enumerate(link.losses):
        for new in [0, *rounder(number)]:
            yield replace(link, losses=tuple(sorted({*link.losses[:at], new, *link.losses[at + 1 :]})))


def to_base(link: Link, of: LinkClass) -> Iterator[Link]:
    """Fewer slots that differ from the base trace: all, halves, quarters, each one."""
    size = len(link.pieces)
    while size:
        for begin in range(0, len(link.pieces), size):
            pieces = link.pieces[:begin] + of.base[begin : begin + size] + link.pieces[begin + size :]
            yield of.fitted(replace(link, pieces=pieces))
        size //= 2


STEPS: Sequence[Step] = (plain_traces, without_losses, merged, without_pieces, rounder_pieces, plainer_numbers)
NEAR_BASE: Sequence[Step] = (without_losses, to_base, plainer_numbers)


def shrunk(found: Rated, of: LinkClass, score: Scores, least: float, most: int = MOST_TRIED) -> Tuple[Rated, int]:
    """The smallest link that was found from one, whose score is at least `least`, and how many were tried, about `most`
    at the most. Each step tries its links in parts, the cheapest first, and takes the cheapest of the first part in
    which one keeps it."""
    now, tried, is_better = found, 0, True
    while is_better:
        is_better = False
        for step in NEAR_BASE if of.base else STEPS:
            taken = True
            while taken and tried < most:
                smaller, count = one_step(step, now, of, score, least)
                tried += count
                taken = smaller is not None
                if smaller is not None:
                    now, is_better = smaller, True
    return now, tried


def one_step(step: Step, now: Rated, of: LinkClass, score: Scores, least: float) -> Tuple[Rated | None, int]:
    """A cheaper link of a step that keeps the score, or None, and how many were tried."""
    bound, tried = cost(now.link, of), 0
    fitted = dict.fromkeys(of.fitted(link) for link in step(now.link, of) if link.pieces and link.total)
    links = sorted(
        (link for link in fitted if of.allows(link) and cost(link, of) < bound), key=lambda one: cost(one, of)
    )
    for begin in range(0, len(links), AT_ONCE):
        part = links[begin : begin + AT_ONCE]
        tried += len(part)
        kept = [Rated(value, link) for value, link in zip(score(part, least), part) if value >= least]
        if kept:
            return kept[0], tried
    return None, tried


# ---- near links


def near(link: Link, draw: random.Random) -> Link:
    """A link like another: each length and rate of its trace by up to a tenth, the queue by up to three packets, the
    delay by up to 3 ms more."""
    low, high = 1 - NEAR_SHARE, 1 + NEAR_SHARE
    pieces = [
        (max(1, round(ms * draw.uniform(low, high))), round(count * draw.uniform(low, high)))
        for ms, count in link.pieces
    ]
    pieces[-1] = (pieces[-1][0], max(1, pieces[-1][1]))
    queue = min(LIMITS["queue"], max(1, link.queue + draw.randint(-NEAR_PACKETS, NEAR_PACKETS)))
    delay_us = min(LIMITS["delay_us"], link.delay_us + draw.randint(0, NEAR_US))
    return replace(link, pieces=tuple(pieces), queue=queue, delay_us=delay_us)


def near_links(link: Link, count: int) -> List[Link]:
    """Some links near one, equal ones for an equal link and count."""
    draw = random.Random(1)
    return [near(link, draw) for _ in range(count)]


def near_scores(link: Link, score: Scores, count: int) -> List[float]:
    """The scores of some links near one, sorted. A link whose score few of them have is a coincidence of times, which
    neither another simulator nor a kernel would show."""
    return sorted(score(near_links(link, count))) if count else []
