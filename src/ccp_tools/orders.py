"""Flows that share a link, in several orders of the scenario and with small changes of queue and delays.

Flows of `shared` take turns in the order of the scenario, and queue and delays decide which of them finds the last
place of the queue. So a share of one run is one sample (docs/shared.md). `ccp metrics --orders` makes all runs, and
averages over them.

Equal arguments give equal runs on every machine."""

from __future__ import annotations

import argparse
import itertools
import math
import random
from concurrent.futures import ThreadPoolExecutor
from dataclasses import dataclass
from pathlib import Path
from typing import Iterator, List, Tuple

from . import program
from .arguments import whole
from .errors import CcpError, UsageError
from .scenario_files import Scenario
from .tables import LIMITS
from .texts import Table

# a change makes the queue at most this many packets longer or shorter, and a delay at most this much longer
QUEUE_PACKETS = 3
DELAY_US = 3000
# the most runs of one command
MOST_RUNS = 2000
# what the figures of a flow have beside those of one run
COLUMNS = ["run", "place", "change"]


@dataclass(frozen=True)
class Run:
    """A run: its number from 1, the numbers of the scenario's flows in their order, its change from 1, or 0 where
    nothing is changed, and its scenario."""

    number: int
    order: Tuple[int, ...]
    change: int
    scenario: Scenario

    def place(self, flow: int) -> int:
        """The place of a flow in the order, from 1."""
        return self.order.index(flow) + 1


def order_count(text: str) -> int:
    """A parser of --orders: a number, or `all` as 0."""
    try:
        return 0 if text == "all" else whole(1, MOST_RUNS)(text)
    except argparse.ArgumentTypeError:
        raise argparse.ArgumentTypeError("%s: all, or a number from 1 to %d, is expected" % (text, MOST_RUNS)) from None


def orders_of(flows: int, count: int = 0) -> List[Tuple[int, ...]]:
    """`count` orders of the flows from 0, evenly spaced among all in lexicographic order; all where it is 0, or more
    than there are."""
    all_of_them = math.factorial(flows)
    some = min(count, all_of_them) or all_of_them
    if some > MOST_RUNS:
        raise UsageError("--orders all: %d flows have %d orders; --orders N takes N of them" % (flows, all_of_them))
    return [order_at(flows, at * all_of_them // some) for at in range(some)]


def order_at(flows: int, at: int) -> Tuple[int, ...]:
    """The order with the number `at`, from 0, among all orders of the flows in lexicographic order."""
    left, made = list(range(flows)), []
    for remaining in range(flows - 1, -1, -1):
        place, at = divmod(at, math.factorial(remaining))
        made.append(left.pop(place))
    return tuple(made)


def changed(scenario: Scenario, change: int) -> Scenario:
    """The scenario with a queue of up to QUEUE_PACKETS more or fewer packets, and each delay up to DELAY_US longer.
    Change 0 is the scenario itself."""
    if not change:
        return scenario
    draw = random.Random(change).random
    queue = scenario["shared"]["queue"] + int((2 * QUEUE_PACKETS + 1) * draw()) - QUEUE_PACKETS
    cases = [
        {**case, "delay_us": min(LIMITS["delay_us"], case["delay_us"] + int((DELAY_US + 1) * draw()))}
        for case in scenario["cases"]
    ]
    shared = {**scenario["shared"], "queue": min(LIMITS["queue"], max(1, queue))}
    return {**scenario, "shared": shared, "cases": cases}


def runs_of(scenario: Scenario, count: int = 0, changes: int = 0) -> List[Run]:
    """The runs of a scenario of `shared`: `count` of its orders, or all, each with the changes from 1, or unchanged
    where there is none. A scenario without flows or a shared link is a CcpError."""
    if not isinstance(scenario.get("shared"), dict) or not scenario.get("cases"):
        raise CcpError("--orders: flows that share a link are expected, as `ccp scenario --shared` writes them")
    orders = orders_of(len(scenario["cases"]), count)
    numbers = list(range(1, changes + 1)) or [0]
    if len(orders) * len(numbers) > MOST_RUNS:
        values = (len(orders), len(numbers), len(orders) * len(numbers), MOST_RUNS)
        raise UsageError("%d orders with %d changes are %d runs, and at most %d are made" % values)
    made = []
    for number, (change, order) in enumerate(itertools.product(numbers, orders), 1):
        one = changed(scenario, change)
        made.append(Run(number, order, change, {**one, "cases": [one["cases"][at] for at in order]}))
    return made


def tables_of(runs: List[Run], path: str | Path | None = None) -> Iterator[Tuple[Run, Table]]:
    """Each run with the table that `shared` prints of it, by the program at a path."""
    found = program.find_program(path)
    with ThreadPoolExecutor(program.processors()) as pool:
        yield from zip(runs, pool.map(lambda run: program.run_table(run.scenario, "shared", program=found), runs))
