"""Losses of packets beside those of the queue: listed ones, or drawn ones by their chances."""
from __future__ import annotations

import argparse
import bisect
import random
import re
from typing import Callable, Dict, List, Sequence, Tuple

from .arguments import shown, whole

seed = whole(0, 2**32 - 1)


class Loss:
    """What packets a flow loses: those of `numbers`, or those that are drawn with the `chances` of its kind and a seed.
    `label` is how the user wrote it. One chance is that of each packet; two are those that a burst begins and ends."""

    def __init__(
        self, label: str, numbers: Sequence[int] = (), chances: Sequence[float] = (), seed: int | None = None
    ) -> None:
        self.label = label
        self.numbers = list(numbers)
        self.chances = list(chances)
        self.seed = seed
        # by seed, how many packets were drawn and which of them are lost
        self.kept: Dict[int, Tuple[int, List[int]]] = {}

    @property
    def rate(self) -> float | None:
        """The share of packets that is lost on average; None where the packets are listed."""
        if not self.chances:
            return None if self.numbers else 0
        return self.chances[0] if len(self.chances) == 1 else round(self.chances[0] / sum(self.chances), 6)

    def drawn(self, seed: int | None, count: int) -> List[int]:
        """The numbers of lost packets below a count. Equal seeds draw the same packets."""
        if not self.chances or seed is None:
            return self.numbers
        if seed not in self.kept or self.kept[seed][0] < count:
            draw = random.Random(seed).random
            if len(self.chances) == 1:
                self.kept[seed] = count, by_chance(draw, count, self.chances[0])
            else:
                self.kept[seed] = count, in_bursts(draw, count, *self.chances)
        lost = self.kept[seed][1]
        return lost[: bisect.bisect_left(lost, count)]


def by_chance(draw: Callable[[], float], count: int, share: float) -> List[int]:
    """Packets that are lost each with the same chance."""
    return [number for number in range(count) if draw() < share]


def in_bursts(draw: Callable[[], float], count: int, begins: float, ends: float) -> List[int]:
    """Packets that are lost in bursts: a two-state chain, as of Gilbert."""
    lost, is_lost = [], False
    for number in range(count):
        is_lost = draw() >= ends if is_lost else draw() < begins
        if is_lost:
            lost.append(number)
    return lost


def chance(text: str, part: str, most: float) -> float:
    """A chance in a text: a decimal number from 0 to `most`."""
    value = float(part) if re.fullmatch(r"[0-9]*\.?[0-9]+(e-?[0-9]+)?", part) else -1.0
    if not 0 <= value <= most:
        raise argparse.ArgumentTypeError("%s: %s isn't a chance from 0 to %g" % (shown(text), shown(part), most))
    return value


def loss(text: str) -> Loss:
    """A parser of one kind of losses: none, numbers with + between, rate:P[:SEED] or gilbert:P:R[:SEED]."""
    kind, *parts = text.split(":")
    count = {"rate": 1, "gilbert": 2}.get(kind)
    if count and count <= len(parts) <= count + 1:
        chances = [chance(text, part, 0.5 if count == 1 else 1) for part in parts[:count]]
        if count == 2 and chances[0] > chances[1] or not chances[-1]:
            raise argparse.ArgumentTypeError(
                "%s: the chances are above 0, and at most half of the packets are lost" % text
            )
        return Loss(":".join([kind] + parts[:count]), (), chances, seed(parts[count]) if len(parts) > count else None)
    if text == "none":
        return Loss("none")
    if not re.fullmatch(r"[0-9]+(\+[0-9]+)*", text):
        forms = "none, 17+40+900, rate:P[:SEED] and gilbert:P:R[:SEED] are accepted"
        raise argparse.ArgumentTypeError("%s are no losses: %s" % (shown(text), forms))
    numbers = [seed(part) for part in text.split("+")]
    if any(a >= b for a, b in zip(numbers, numbers[1:])):
        raise argparse.ArgumentTypeError("%s: each lost packet comes after the one before" % shown(text))
    return Loss(text, numbers)
