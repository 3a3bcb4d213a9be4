"""The search for numbers: by chance, then steps around the best; or by Optuna, where it is installed."""
from __future__ import annotations

import itertools
import math
import random
from dataclasses import dataclass, field
from typing import Any, Callable, Dict, Iterable, Iterator, List, Sequence, Tuple

from ..errors import CcpError
from .goals import FAULTY, Rating

Choice = Tuple[int, ...]
Rates = Callable[[Sequence[Choice]], List[Rating]]
# the share of trials by chance, the trials that are made at once, and how often a choice is drawn anew where it can't
# be taken
BY_CHANCE, BATCH, ANEW = 0.6, 8, 100
# the spread of steps on a logarithmic scale: it begins wide, and halves where no step of a batch is better
WIDEST, NARROWEST = 0.5, 0.05


@dataclass(frozen=True)
class Space:
    """The choices: for each number its name and its range, both ends included. Of each pair in `order` the first one is
    less than the second."""

    names: Tuple[str, ...]
    ranges: Tuple[Tuple[int, int], ...]
    order: Tuple[Tuple[str, str], ...] = ()

    def allows(self, choice: Choice) -> bool:
        """Whether the order of a choice's numbers is kept."""
        numbers = dict(zip(self.names, choice))
        return all(numbers[lower] < numbers[higher] for lower, higher in self.order)

    @property
    def count(self) -> int:
        """How many choices the ranges have."""
        return math.prod(high - low + 1 for low, high in self.ranges)

    def every(self) -> Iterator[Choice]:
        """Each choice, in order."""
        return filter(self.allows, itertools.product(*(range(low, high + 1) for low, high in self.ranges)))


@dataclass
class Trials:
    """The trials of a search so far: `tried` has each choice with its rating, in order, the program's own first."""

    space: Space
    rates: Rates
    draw: random.Random
    tried: Dict[Choice, Rating] = field(default_factory=dict)
    best: Choice = ()

    def rate(self, choices: Iterable[Choice]) -> bool:
        """Tries choices, and returns whether one is better than all before."""
        new = [choice for choice in dict.fromkeys(choices) if choice not in self.tried]
        before = self.best
        for choice, found in zip(new, self.rates(new) if new else []):
            self.tried[choice] = found
            if not self.best or found > self.tried[self.best]:
                self.best = choice
        return self.best != before

    def drawn(self, make: Callable[[], Choice], count: int) -> List[Choice]:
        """Up to `count` new choices that `make` draws and the order allows."""
        found: Dict[Choice, None] = {}
        for _ in range(count):
            some = (make() for _ in range(ANEW))
            new = (one for one in some if one not in self.tried and one not in found and self.space.allows(one))
            found.update((one, None) for one in itertools.islice(new, 1))
        return list(found)

    def by_chance(self) -> Choice:
        """A choice with each number evenly on a logarithmic scale. 1 is added first, since a range may begin at 0."""
        return tuple(
            min(high, max(low, round(math.exp(self.draw.uniform(math.log(low + 1), math.log(high + 1)))) - 1))
            for low, high in self.space.ranges
        )

    def near(self, spread: float) -> Choice:
        """A choice near the best: some of its numbers moved, each by 1 at least."""
        size = len(self.best)
        moved = [at for at in range(size) if self.draw.random() < 0.5] or [self.draw.randrange(size)]
        made = list(self.best)
        for at in moved:
            low, high = self.space.ranges[at]
            step = round((made[at] + 1) * math.expm1(self.draw.gauss(0, spread)))
            made[at] = min(high, max(low, made[at] + (step or self.draw.choice((-1, 1)))))
        return tuple(made)


def chance_then_steps(trials: Trials, count: int) -> None:
    """At most `count` choices: by chance first, then near the best. All of them, where there are no more."""
    if trials.space.count <= count:
        trials.rate(trials.space.every())
        return
    end = len(trials.tried) + count
    trials.rate(trials.drawn(trials.by_chance, math.ceil(BY_CHANCE * count)))
    spread = WIDEST
    while len(trials.tried) < end:
        some = trials.drawn(lambda: trials.near(spread), min(BATCH, end - len(trials.tried)))
        if not some and spread == WIDEST:
            return
        is_better = trials.rate(some)
        # where all near ones are tried, wider steps find others
        spread = WIDEST if not some else spread if is_better else max(NARROWEST, spread / 2)


def optuna(trials: Trials, count: int) -> None:
    """The tree-structured Parzen estimator of Optuna."""
    try:
        import optuna as library
    except ImportError:
        raise CcpError("--search optuna: the Python module optuna isn't installed") from None
    library.logging.set_verbosity(library.logging.WARNING)
    seed = trials.draw.randrange(2**32)
    sampler = library.samplers.TPESampler(seed=seed, constant_liar=True, multivariate=True)
    study = library.create_study(direction="maximize", sampler=sampler)
    for at in range(0, count, BATCH):
        asked = [study.ask() for _ in range(min(BATCH, count - at))]
        choices = [suggested(trials.space, one) for one in asked]
        trials.rate(one for one in choices if trials.space.allows(one))
        for one, choice in zip(asked, choices):
            found = trials.tried.get(choice, FAULTY)
            # a missed floor counts more than any score
            study.tell(one, max(-1e9, found.score + 1e3 * found.short))


def suggested(space: Space, trial: Any) -> Choice:
    """The choice that a trial of Optuna suggests. A wide range is searched on a logarithmic scale."""
    wide = [low > 0 and high > 20 * low for low, high in space.ranges]
    ranges = zip(space.names, space.ranges, wide)
    return tuple(trial.suggest_int(name, low, high, log=is_wide) for name, (low, high), is_wide in ranges)


SEARCHES: Dict[str, Callable[[Trials, int], None]] = {"chance": chance_then_steps, "optuna": optuna}
