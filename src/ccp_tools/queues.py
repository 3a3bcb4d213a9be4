"""How long the queue of a link is: in packets, or by the link's own rate."""
from __future__ import annotations

import argparse
import math
import re
from dataclasses import dataclass
from typing import List

from .aggregation import packets_of
from .arguments import list_of, ranges, shown, whole
from .tables import LIMITS
from .traces import Trace


@dataclass(frozen=True)
class Queue:
    """The length of a queue, by one of three: packets of one segment, a multiple of the link's bandwidth-delay product
    (its mean rate times the delay), or milliseconds at its mean rate."""

    packets: int = 0
    products: float = 0
    ms: float = 0

    @property
    def label(self) -> str:
        """`100`, `1bdp` or `100ms`."""
        return "%d" % self.packets if self.packets else "%gbdp" % self.products if self.products else "%gms" % self.ms

    def text(self) -> str:
        """The queue as --queue or --queue-ms takes it."""
        return self.label.removesuffix("ms")

    def on(self, link: Trace, delay_us: int, count: int = 1) -> int:
        """The packets of `count` segments that wait at most on a link whose chances are those of such packets, at
        least 1. It may be more than a scenario accepts."""
        us = self.products * delay_us or 1000 * self.ms
        # rounded first: 1.1 * 20 is above 22
        segments = self.packets or math.ceil(round(us * count * len(link.times) / link.period_us, 6))
        return max(1, packets_of(segments, count))


def queues(text: str) -> List[Queue]:
    """A parser of --queue: numbers of packets, ranges of them, and products of bandwidth and delay, as 100,1bdp."""
    found: List[Queue] = []
    for part in list_of(str)(text):
        time = re.fullmatch(r"([0-9]+(?:\.[0-9]+)?) ?(ms|s)", part.lower())
        if time:
            ms = float(time[1]) * (1 if time[2] == "ms" else 1000)
            raise argparse.ArgumentTypeError("%s: a queue in milliseconds is --queue-ms %g" % (shown(part), ms))
        product = re.fullmatch(r"([0-9]{1,3}(?:\.[0-9]{1,3})?)bdp", part.lower())
        if product and float(product[1]):
            found.append(Queue(products=float(product[1])))
        else:
            try:
                found += [Queue(count) for count in ranges(whole(1, LIMITS["queue"]))(part)]
            except argparse.ArgumentTypeError as error:
                raise argparse.ArgumentTypeError("%s; nor a product as 1bdp" % error) from None
    return list(dict.fromkeys(found))


def queues_ms(text: str) -> List[Queue]:
    """A parser of --queue-ms: milliseconds with commas between."""
    found = []
    for part in list_of(str)(text):
        if not re.fullmatch(r"[0-9]{1,5}(\.[0-9]{1,3})?", part) or not float(part):
            raise argparse.ArgumentTypeError("%s isn't a number of milliseconds above 0" % shown(part))
        found.append(Queue(ms=float(part)))
    return list(dict.fromkeys(found))
