"""Links that a hunt searches through, and the class that they are of.

A link's trace is a list of pieces (milliseconds, chances): the chances of a piece are spread evenly over it, so the
last one is at its end. A class bounds the mean rate and the greatest gap between two chances, as CC-Fuzz bounds the
links that it tries (Ray and Seshan, HotNets 2022): one that is dead or slow shows nothing."""
from __future__ import annotations

import math
from dataclasses import dataclass, replace
from functools import lru_cache
from typing import Any, Dict, List, Mapping, Tuple

from ..tables import LIMITS

# the rate of a chance in each millisecond, in Mbit/s of packets of 1,500 bytes
MBPS = 12.0
Pieces = Tuple[Tuple[int, int], ...]
Range = Tuple[int, int]
# the numbers of a link that have a range in its class, in the order in which they are drawn
NUMBERS = ("delay_us", "queue", "timeout_us", "lag", "mss", "mark")


@dataclass(frozen=True)
class Link:
    """A link: its trace, and the numbers of its case by their names in a scenario. `mark` is 0 where no packet is
    marked."""

    pieces: Pieces
    queue: int
    delay_us: int
    timeout_us: int = 1_000_000
    lag: int = 0
    mss: int = 1448
    mark: int = 0
    losses: Tuple[int, ...] = ()

    @property
    def period_ms(self) -> int:
        """The length of the trace in milliseconds."""
        return sum(ms for ms, _ in self.pieces)

    @property
    def total(self) -> int:
        """The chances of the trace."""
        return sum(count for _, count in self.pieces)

    @property
    def mbps(self) -> float:
        """The mean rate in Mbit/s of packets of 1,500 bytes."""
        return MBPS * self.total / self.period_ms

    def trace(self) -> str:
        """The trace's text, a time in milliseconds a line."""
        at, parts = 0, []
        for ms, count in self.pieces:
            if count:
                parts.append(piece_text(at, ms, count))
            at += ms
        return "".join(parts)

    def chances(self, until_us: int) -> int:
        """How many chances come at or before a time in microseconds. The trace ends with a chance."""
        whole, rest = divmod(until_us // 1000, self.period_ms)
        made = whole * self.total
        for ms, count in self.pieces:
            if rest < ms:
                return made + rest * count // ms
            made, rest = made + count, rest - ms
        return made

    def gap_ms(self) -> int:
        """The longest time between two chances in milliseconds, also where the trace begins anew."""
        at, last, longest = 0, 0, 0
        for ms, count in self.pieces:
            if count:
                first = at - (-ms // count)
                longest, last = max(longest, -(-ms // count), first - last), at + ms
            at += ms
        return max(longest, at - last)

    def bdp(self) -> float:
        """The product of the mean rate and the delay, in packets."""
        return self.total * self.delay_us / (1000 * self.period_ms)

    def case(self, trace: str, acks: int) -> Dict[str, Any]:
        """The members of a case on this link but its name and its sender."""
        made: Dict[str, Any] = {"trace": trace, "mss": self.mss, "queue": self.queue, "delay_us": self.delay_us}
        made.update(timeout_us=self.timeout_us, acks=acks)
        made.update({name: value for name, value in (("lag", self.lag), ("mark", self.mark)) if value})
        if self.losses:
            made["losses"] = list(self.losses)
        return made

    def data(self) -> Dict[str, Any]:
        """The link as JSON has it; numbers that are those of every link are left out."""
        made = {"pieces": [list(piece) for piece in self.pieces], "queue": self.queue, "delay_us": self.delay_us}
        plain = Link(self.pieces, self.queue, self.delay_us)
        names = ("timeout_us", "lag", "mss", "mark", "losses")
        made.update({name: getattr(self, name) for name in names if getattr(self, name) != getattr(plain, name)})
        return made


def link_of(data: Mapping[str, Any]) -> Link:
    """The link of what `Link.data` made. A ValueError, TypeError or KeyError where it is none."""
    pieces = tuple((int(ms), int(count)) for ms, count in data["pieces"])
    names = [name for name in (*NUMBERS, "losses") if name in data]
    numbers: Dict[str, Any] = {name: tuple(data[name]) if name == "losses" else int(data[name]) for name in names}
    made = Link(pieces, **numbers)
    if not pieces or min(ms for ms, _ in pieces) < 1 or min(count for _, count in pieces) < 0 or not pieces[-1][1]:
        raise ValueError("a piece has a length above 0, and the last one a chance")
    return made


@lru_cache(maxsize=200_000)
def piece_text(begin: int, ms: int, count: int) -> str:
    """The times of a piece that begins at a time."""
    return "".join("%d\n" % (begin - (-(at + 1) * ms // count)) for at in range(count))


@dataclass(frozen=True)
class LinkClass:
    """The links that count. Ranges are inclusive. `rate_mbps` bounds the mean rate, `peak` the highest rate of a slot
    in means, and `gap_ms` the time between two chances. `queue` is in packets, or where `queue_bdp` is given in
    bandwidth-delay products. `losses` is the most listed losses. With `base` a trace is that one with each slot changed
    by at most the share `change`."""

    seconds: float = 4
    rate_mbps: Tuple[float, float] = (11.5, 12.5)
    peak: float = 8
    gap_ms: int = 100
    slot_ms: int = 50
    queue: Range = (20, 250)
    queue_bdp: Tuple[float, float] | None = None
    delay_us: Range = (10_000, 100_000)
    timeout_us: Range = (1_000_000, 1_000_000)
    lag: Range = (0, 0)
    mss: Range = (1448, 1448)
    mark: Range = (0, 0)
    losses: int = 0
    base: Pieces = ()
    change: float = 0.0

    @property
    def slots(self) -> int:
        """How many slots a drawn trace has."""
        return len(self.base) or max(1, int(1000 * self.seconds / self.slot_ms))

    def range_of(self, name: str, link: Link) -> Range:
        """The range of a number of a link; that of the queue may depend on the link's rate and delay."""
        if name != "queue" or not self.queue_bdp:
            found: Range = getattr(self, name)
            return found
        low, high = (max(1, min(LIMITS["queue"], math.ceil(round(x * link.bdp(), 6)))) for x in self.queue_bdp)
        return low, high

    def fitted(self, link: Link) -> Link:
        """The link with its queue in the range of its rate and delay."""
        if not self.queue_bdp:
            return link
        low, high = self.range_of("queue", link)
        return replace(link, queue=min(high, max(low, link.queue)))

    def allows(self, link: Link) -> bool:
        """Whether a link is of this class; shorter traces are, if their mean rate and their gaps are."""
        if len(link.losses) > self.losses or not link.pieces or not link.pieces[-1][1]:
            return False
        for name in NUMBERS:
            low, high = self.range_of(name, link)
            if not low <= getattr(link, name) <= high:
                return False
        if self.base:
            return self.is_near_base(link.pieces)
        highest = self.peak * self.rate_mbps[1]
        return (
            link.period_ms <= 1000 * self.seconds
            and self.rate_mbps[0] <= link.mbps <= self.rate_mbps[1]
            and all(ms > 0 and MBPS * count <= highest * ms for ms, count in link.pieces)
            and link.gap_ms() <= self.gap_ms
        )

    def is_near_base(self, pieces: Pieces) -> bool:
        """Whether each slot of a trace is that of the base, up to the share `change` and one chance."""
        if [ms for ms, _ in pieces] != [ms for ms, _ in self.base]:
            return False
        return all(low <= count <= high for (_, count), (low, high) in zip(pieces, self.bounds()))

    def bounds(self) -> List[Range]:
        """The least and the most chances of each slot of a trace near the base."""
        made = [
            (math.ceil((1 - self.change) * count), int((1 + self.change) * count + 0.999)) for _, count in self.base
        ]
        return [*made[:-1], (max(1, made[-1][0]), max(1, made[-1][1]))]

    def acks(self, link: Link) -> int:
        """The acknowledgements of a case: what the link can give in the seconds, and a timeout each `timeout_us`."""
        us = int(1_000_000 * self.seconds)
        return min(LIMITS["acks"], link.chances(us) + min(100, us // link.timeout_us) + 1)


def slots_of(times: List[int], slot_ms: int, seconds: float) -> Pieces:
    """The pieces of a trace's first seconds, in slots; its times are in milliseconds. The last slot has a chance."""
    slots = max(1, min(int(1000 * seconds), times[-1] + slot_ms - 1) // slot_ms)
    counts = [0] * slots
    for time in times:
        at = max(0, time - 1) // slot_ms
        if at < slots:
            counts[at] += 1
    counts[-1] = max(1, counts[-1])
    return tuple((slot_ms, count) for count in counts)
