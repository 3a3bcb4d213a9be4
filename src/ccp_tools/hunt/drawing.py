"""How links are drawn, changed and crossed, by a generator of random numbers: equal seeds give equal links."""
from __future__ import annotations

import itertools
import math
import random
from dataclasses import replace
from typing import Iterator, List, Sequence

from .links import MBPS, NUMBERS, Link, LinkClass, Pieces, Range

# how uneven dealt traces are, from few bursts to almost even
EVENNESS = (0.3, 1, 3, 10, 100)
# the share of numbers that are an end of their range
ENDS = 0.15
# the share of drawn links whose trace is a few rates in turn
FEW = 0.5


def between(draw: random.Random, bounds: Range) -> int:
    """A number of a range, evenly on a logarithmic scale; now and then one of its ends, where programs fail first."""
    low, high = bounds
    if low == high:
        return low
    if draw.random() < ENDS:
        return draw.choice(bounds)
    return min(high, max(low, round((low + 1) * ((high + 1) / (low + 1)) ** draw.random()) - 1))


def drawn(of: LinkClass, draw: random.Random) -> Link:
    """A link of a class: its mean rate and its numbers evenly on a logarithmic scale, its trace a few rates in turn, or
    chances that are dealt to halves of the time, and to halves of these, as CC-Fuzz deals packets."""
    low, high = of.rate_mbps
    total = int(of.slots * of.slot_ms * low * (high / low) ** draw.random() / MBPS)
    if of.base:
        counts = near_base(of, draw, [count for _, count in of.base])
    elif draw.random() < FEW:
        counts = in_turn(draw, total, of.slots)
    else:
        counts = dealt(draw, total, of.slots, draw.choice(EVENNESS))
    made = repaired(of, draw, Link(as_pieces(of, counts), queue=1, delay_us=0))
    for name in NUMBERS:
        made = replace(made, **{name: between(draw, of.range_of(name, made))})
    return replace(made, losses=tuple(sorted({a_loss(of, draw, made) for _ in range(draw.randint(0, of.losses))})))


def a_loss(of: LinkClass, draw: random.Random, link: Link) -> int:
    """The number of a packet that is lost, more often an early one."""
    return int(of.acks(link) * draw.random() ** 2)


def as_pieces(of: LinkClass, counts: Sequence[int]) -> Pieces:
    """Slots as pieces."""
    return tuple((of.slot_ms, count) for count in counts)


def dealt(draw: random.Random, total: int, slots: int, even: float) -> List[int]:
    """Chances dealt to slots, half by half."""
    if slots == 1:
        return [total]
    half = slots // 2
    share = draw.betavariate(even * half / slots * 2, even * (slots - half) / slots * 2)
    left = round(total * share)
    return dealt(draw, left, half, even) + dealt(draw, total - left, slots - half, even)


def in_turn(draw: random.Random, total: int, slots: int) -> List[int]:
    """One to five rates for some slots each, over and over."""
    rates: List[float] = []
    period = max(1, slots // draw.choice((1, 1, 2, 4, 8, 16)))
    for _ in range(draw.randint(1, 5)):
        rates += [math.exp(draw.uniform(-4, 3))] * max(1, int(draw.expovariate(3 / period)))
    shares = [rates[at % len(rates)] for at in range(slots)]
    return [round(share * total / sum(shares)) for share in shares]


def near_base(of: LinkClass, draw: random.Random, counts: Sequence[int]) -> List[int]:
    """The slots of a trace near the base: stretches of them with more or fewer chances."""
    made = list(counts)
    for _ in range(draw.randint(1, 5)):
        begin = draw.randrange(len(made))
        end = min(len(made), begin + 1 + int(draw.expovariate(8 / len(made))))
        factor = 1 + of.change * draw.uniform(-1, 1)
        made[begin:end] = [round(count * factor) for _, count in of.base[begin:end]]
    return made


# ---- into the class


def repaired(of: LinkClass, draw: random.Random, link: Link) -> Link:
    """The link with slots as its class has them: as many chances, no gap too long, and no slot too fast."""
    counts = [count for _, count in link.pieces]
    if of.base:
        counts = [min(high, max(low, count)) for count, (low, high) in zip(counts, of.bounds())]
        return of.fitted(replace(link, pieces=tuple((ms, count) for (ms, _), count in zip(of.base, counts))))
    cap = max(1, int(of.peak * of.rate_mbps[1] * of.slot_ms / MBPS))
    counts = without_gaps(of, [min(cap, max(0, count)) for count in counts])
    ms = len(counts) * of.slot_ms
    low, high = math.ceil(ms * of.rate_mbps[0] / MBPS - 1e-9), int(ms * of.rate_mbps[1] / MBPS + 1e-9)
    low, high = max(1, min(low, high)), max(1, low, high)
    while not low <= sum(counts) <= high:
        wanted = draw.randint(low, high) - sum(counts)
        if not wanted:
            continue
        some = max(1, abs(wanted) // 20)
        at = draw.randrange(len(counts))
        if wanted > 0:
            counts[at] = min(cap, counts[at] + some)
        else:
            counts[at] = max(1 if counts[at] else 0, counts[at] - some)
            if sum(counts) <= sum(1 for count in counts if count):
                break  # one chance a slot, and the class still wants fewer
    return of.fitted(replace(link, pieces=as_pieces(of, counts)))


def without_gaps(of: LinkClass, counts: List[int]) -> List[int]:
    """Slots with a chance wherever the gap would be too long, and one at their end."""
    # an empty stretch of slots, and then the next chance at the end of a slot
    longest, run = max(0, of.gap_ms // of.slot_ms - 1), 0
    least = -(-of.slot_ms // max(1, of.gap_ms - longest * of.slot_ms))
    for at, count in enumerate(counts):
        run = 0 if count else run + 1
        if run > longest:
            counts[at], run = 1, 0
        if counts[at]:
            counts[at] = max(counts[at], least)
    counts[-1] = max(1, counts[-1])
    return counts


# ---- changing


def mutated(of: LinkClass, draw: random.Random, link: Link) -> Link:
    """A link with one to three changes of its slots or its numbers."""
    for _ in range(draw.choice((1, 1, 2, 3))):
        if draw.random() < 0.55:
            link = replace(link, pieces=changed_slots(of, draw, link))
        else:
            link = with_other_number(of, draw, link)
    return repaired(of, draw, link)


def changed_slots(of: LinkClass, draw: random.Random, link: Link) -> Pieces:
    """The slots of a link after one change."""
    counts = [count for _, count in link.pieces]
    return as_pieces(of, near_base(of, draw, counts) if of.base else mutated_counts(draw, counts))


def with_other_number(of: LinkClass, draw: random.Random, link: Link) -> Link:
    """A link with another value of one of its numbers, or with another loss."""
    free = [name for name in NUMBERS if len(set(of.range_of(name, link))) > 1]
    free += ["losses"] * (2 if of.losses else 0)
    if not free:
        return link
    name = draw.choice(free)
    if name == "losses":
        return replace(link, losses=other_losses(of, draw, link))
    low, high = of.range_of(name, link)
    if draw.random() < 0.2:
        return replace(link, **{name: between(draw, (low, high))})
    value = int(getattr(link, name) * draw.lognormvariate(0, 0.3)) + draw.choice((-1, 0, 1))
    return replace(link, **{name: min(high, max(low, value))})


def other_losses(of: LinkClass, draw: random.Random, link: Link) -> tuple[int, ...]:
    """The losses of a link with one moved, left out or added."""
    losses = set(link.losses)
    kind = draw.random()
    if losses and (len(losses) >= of.losses or kind < 0.6):
        moved = draw.choice(sorted(losses))
        losses.remove(moved)
        if kind >= 0.15:
            losses.add(max(0, moved + draw.randint(-50, 50)))
    else:
        losses.add(a_loss(of, draw, link))
    return tuple(sorted(losses))


def crossed(of: LinkClass, draw: random.Random, one: Link, other: Link) -> Link:
    """The beginning of one trace and the end of another, and each number of one of the two."""
    cut = draw.randrange(len(one.pieces))
    numbers = {name: getattr(draw.choice((one, other)), name) for name in (*NUMBERS, "losses")}
    return repaired(of, draw, Link(one.pieces[:cut] + other.pieces[cut:], **numbers))


def mutated_counts(draw: random.Random, counts: List[int]) -> List[int]:
    """Slots after one change: a stretch is dealt anew, smoothed, moved, exchanged, repeated or scaled."""
    slots = len(counts)
    begin = draw.randrange(slots)
    end = min(slots, begin + 1 + int(draw.expovariate(8 / slots)))
    part, to, kind = counts[begin:end], draw.randrange(slots), draw.randrange(6)
    if kind == 0:
        counts[begin:end] = dealt(draw, sum(part), len(part), draw.choice((0.3, 1, 10)))
    elif kind == 1:
        mean, rest = divmod(sum(part), len(part))
        counts[begin:end] = [mean + (at < rest) for at in range(len(part))]
    elif kind == 2:
        taken = [int(count * draw.random()) for count in part]
        counts[begin:end] = [count - some for count, some in zip(part, taken)]
        counts[to] += sum(taken)
    elif kind == 3:
        del counts[begin:end]
        counts[to:to] = part
    elif kind == 4:
        counts[to : to + len(part)] = part
        del counts[slots:]
    else:
        factor = draw.lognormvariate(0, 0.8)
        counts[begin:end] = [int(count * factor) for count in part]
    return counts


# ---- simple links


def spread(low: int, high: int, steps: int) -> List[int]:
    """Some numbers of a range, evenly on a logarithmic scale, with both ends."""
    share = (high + 1) / (low + 1)
    return sorted({round((low + 1) * share ** (at / max(1, steps - 1))) - 1 for at in range(steps)})


def square_waves(of: LinkClass) -> Iterator[Pieces]:
    """What somebody would try by hand: a constant rate, and two rates in turn."""
    slots, (low, high) = of.slots, of.rate_mbps
    mean = math.sqrt(low * high) / MBPS * of.slot_ms
    yield as_pieces(of, [round(mean)] * slots)
    for length, ratio in itertools.product((2, 4, 10, 20, 50, slots), (0.0, 0.1, 0.3, 3.0, 10.0)):
        part = max(1, length // 2)
        rates = [ratio if at % length >= part else 1.0 for at in range(slots)]
        unit = mean * slots / sum(rates)
        yield as_pieces(of, [round(unit * rate) for rate in rates])


def plain(of: LinkClass, pieces: Pieces, queue: int, delay_us: int) -> Link:
    """A link with a trace, a queue and a delay, and the least of each other number. A queue in products is the place
    of `queue` in its range, from 0 to 1,000."""
    made = repaired(of, random.Random(0), Link(pieces, queue, delay_us, of.timeout_us[0], of.lag[0], of.mss[0]))
    made = replace(made, mark=of.mark[0])
    if not of.queue_bdp:
        return made
    low, high = of.range_of("queue", made)
    return replace(made, queue=low + (high - low) * queue // 1000)


def queues_of(of: LinkClass, steps: int) -> List[int]:
    """Some queues of a class, as `plain` takes them."""
    return [1000 * at // max(1, steps - 1) for at in range(steps)] if of.queue_bdp else spread(*of.queue, steps)


def grid(of: LinkClass) -> Iterator[Link]:
    """Square waves with some queues and delays."""
    traces = [of.base] if of.base else list(square_waves(of))
    for pieces, queue, delay_us in itertools.product(traces, queues_of(of, 7), spread(*of.delay_us, 5)):
        yield plain(of, pieces, queue, delay_us)


def simplest(of: LinkClass) -> List[Link]:
    """A few links to begin with: a constant rate, or the base, with each end of the queue and of the delay."""
    pieces = of.base or next(square_waves(of))
    found = [plain(of, pieces, queue, us) for queue, us in itertools.product(queues_of(of, 2), of.delay_us)]
    return list(dict.fromkeys(found))
