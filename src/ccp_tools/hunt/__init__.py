"""Hunts for a link on which a sender is bad, makes it small, and keeps it as a test.

    ccp hunt SENDER --for low-throughput|high-delay|losses|stalls|unfair|fault [OPTION].. [--out DIR]
    ccp hunt SENDER --assert 'FIGURE>=N' [OPTION].. [--out DIR]
    ccp hunt hunt.toml --out DIR

    ccp hunt examples/delay.portus --assert 'queueing_mean_ms<=20' --queue 100 --delay-ms 20 --peak 2

--for looks for a link on which the sender is as bad as can be, beside a reference: for low-throughput the best of six
constant windows that loses at most 2 %, else none, or another by --against. --assert looks for one on which a property
doesn't hold, and ends at the first; the figures are utilization, throughput_mbps, loss_rate, queueing_mean_ms,
rtt_mean_ms, power, timeouts, faults and share, as `ccp metrics` has them, over --seconds S after --from.

What is found is made small: a rate, or two in turn, where they keep the score. Then links near it are run, with lengths
and rates up to a tenth and queue and delay a little apart: a find that holds on fewer than --holds of --near is a
coincidence, and isn't reported as found. docs/hunt.md says what a find means and what it doesn't.

SENDER is one as --senders of every command takes it, FILE.portus, or FILE.py, an agent outside. Equal words give equal
files for any number of --workers. --corpus DIR runs the links of earlier hunts first, and adds the new one.

DIR gets scenario.json and found.trace, which run the find again (`ccp campaign DIR/scenario.json` prints table.txt),
found.txt and flows.svg, hunt.toml and hunt.json, and of a fault fault.ccp, an input of `fold` that runs into it.

Exit status: with --for 0 where a link was found and 1 where none was; with --assert 0 where no link breaks the property
and 1 where one does; 1 also where a step fails, and 2 where an argument is wrong."""
from __future__ import annotations

from importlib import import_module
from typing import TYPE_CHECKING, Any

if TYPE_CHECKING:
    from .command import add_arguments, run
    from .goals import GOALS, Goal, asserted
    from .hunted import Effort, Hunted, hunt
    from .learned import score_of
    from .links import Link, LinkClass

__all__ = [
    "GOALS",
    "Effort",
    "Goal",
    "Hunted",
    "Link",
    "LinkClass",
    "add_arguments",
    "asserted",
    "hunt",
    "run",
    "score_of",
]

MODULES = {
    **dict.fromkeys(["add_arguments", "run"], "command"),
    **dict.fromkeys(["GOALS", "Goal", "asserted"], "goals"),
    **dict.fromkeys(["Effort", "Hunted", "hunt"], "hunted"),
    **dict.fromkeys(["Link", "LinkClass"], "links"),
    "score_of": "learned",
}


def __getattr__(name: str) -> Any:
    if name in MODULES:
        return getattr(import_module("." + MODULES[name], __name__), name)
    raise AttributeError("module %r has no attribute %r" % (__name__, name))
