"""The words of `ccp hunt`: its options, and hunt.toml, which keeps them."""
from __future__ import annotations

import argparse
import json
import re
from dataclasses import replace
from typing import Any, Callable, Dict, List, Mapping, Sequence, Tuple

from ..arguments import Parser, add_ccp, add_portus, shown, whole
from ..errors import CcpError, UsageError
from ..tables import LIMITS
from ..traces import read_trace
from .goals import GOALS, Goal, asserted
from .hunted import SEARCHES, Effort
from .links import Link, LinkClass, slots_of

# the class in which faults are looked for: all that a case may be, but for what only takes long
FAULTS = LinkClass(
    seconds=2,
    rate_mbps=(0.1, 30),
    gap_ms=400,
    queue=(1, LIMITS["queue"]),
    delay_us=(0, LIMITS["delay_us"]),
    timeout_us=(1, LIMITS["timeout_us"]),
    lag=(0, 50),
    mss=(1, LIMITS["segment_bytes"]),
    losses=30,
)
# the near links that a find has to hold on; a property that is broken on one link is broken
HOLDS = 12
NUMBER = r"[0-9]{1,9}(?:\.[0-9]{1,6})?"


# ---- values


def span(least: float, most: float, unit: float = 1) -> Callable[[str], Tuple[int, int]]:
    """A parser of N or LOW..HIGH, as whole numbers of the `unit` of what is written."""

    def parse(text: str) -> Tuple[int, int]:
        low, high = numbers_of(text, least, most)
        return round(low * unit), round(high * unit)

    return parse


def numbers_of(text: str, least: float, most: float) -> Tuple[float, float]:
    """The two numbers of LOW..HIGH, or twice that of N."""
    found = re.fullmatch("(%s)(?:\\.\\.(%s))?" % (NUMBER, NUMBER), text.strip())
    if found:
        low, high = float(found[1]), float(found[2] or found[1])
        if least <= low <= high <= most:
            return low, high
    raise argparse.ArgumentTypeError("%s isn't N or LOW..HIGH, from %g to %g" % (shown(text), least, most))


def rates(text: str) -> Tuple[float, float]:
    """A parser of --rate."""
    return numbers_of(text, 0.01, 1000)


def queue(text: str) -> Tuple[str, Tuple[float, float]]:
    """A parser of --queue: packets, or products of bandwidth and delay, as 1bdp..2bdp."""
    products = re.fullmatch("(%s)bdp(?:\\.\\.(%s)bdp)?" % (NUMBER, NUMBER), text.strip().lower())
    if products:
        return "queue_bdp", numbers_of("%s..%s" % (products[1], products[2] or products[1]), 0.001, 1000)
    try:
        return "queue", span(1, LIMITS["queue"])(text)
    except argparse.ArgumentTypeError as error:
        raise argparse.ArgumentTypeError("%s; nor products as 1bdp..2bdp" % error) from None


def above(text: str) -> float:
    """A parser of numbers above 0."""
    value = float(text) if re.fullmatch(NUMBER, text) else 0.0
    if not value:
        raise argparse.ArgumentTypeError("%s isn't a number above 0" % shown(text))
    return value


def share(text: str) -> float:
    """A parser of shares, from 0 to 1."""
    value = float(text) if re.fullmatch(NUMBER, text) else 2.0
    if value > 1:
        raise argparse.ArgumentTypeError("%s isn't a share from 0 to 1" % shown(text))
    return value


def seconds(text: str) -> float:
    """A parser of seconds, from 0 to those of the longest trace."""
    return numbers_of(text, 0, LIMITS["trace_ms"] / 1000)[0]


# ---- options


def add_arguments(parser: argparse.ArgumentParser) -> None:
    """Adds the arguments of `ccp hunt`."""
    what = "the sender, as --senders of every command takes one, or FILE.portus or FILE.py; or a file hunt.toml"
    parser.add_argument("sender", metavar="SENDER", help=what)
    goal = parser.add_mutually_exclusive_group()
    goal.add_argument("--for", dest="goal", choices=sorted(GOALS), help="what is looked for")
    what = "a property of each link in place of --for, as 'utilization>=0.8': a link that breaks it is looked for"
    goal.add_argument("--assert", dest="asserted", metavar="FIGURE>=N|FIGURE<=N", help=what)
    add_portus(parser)
    add_effort(parser)
    add_class(parser)
    parser.add_argument("--out", metavar="DIR", help="the folder that gets the files (none)")
    what = "processes that run links; what is found doesn't depend on it (one for each processor)"
    parser.add_argument("--workers", type=whole(1, 32), metavar="N", help=what)
    what = "only says what is searched through, how many links a second, and about how long it takes"
    parser.add_argument("--dry-run", action="store_true", help=what)
    add_ccp(parser)


def add_effort(parser: argparse.ArgumentParser) -> None:
    """Adds how a hunt goes."""
    add, usual = parser.add_argument, Effort()
    what = "the reference: a sender, windows, window:N or capacity (windows for low-throughput, else none)"
    add("--against", metavar="SENDER", help=what)
    add("--links", type=whole(1, 10**7), metavar="N", help="links that are tried (%d)" % usual.links)
    add("--minutes", type=above, metavar="M", help="ends sooner; what is found then depends on the machine")
    add("--seed", type=whole(0, 2**32 - 1), metavar="N", help="another seed is another search (%d)" % usual.seed)
    add("--search", choices=sorted(SEARCHES), help="how links are chosen (%s)" % usual.search)
    what = "the share of the score that a smaller link keeps (%g)" % usual.keep
    add("--keep", type=share, metavar="X", help=what)
    what = "near links that are run to see whether the find is a coincidence (%d)" % usual.near
    add("--near", type=whole(0, 1000), metavar="N", help=what)
    what = "on how many of them a find has to hold to be one (%d; with --assert 0)" % HOLDS
    add("--holds", type=whole(0, 1000), metavar="N", help=what)
    add("--corpus", metavar="DIR", help="links that are run first, those of earlier hunts; a new one is added (none)")


def add_class(parser: argparse.ArgumentParser) -> None:
    """Adds the class of links."""
    add, us = parser.add_argument, 1000
    what = "the length of a trace, and the time that is measured, in seconds (4)"
    add("--seconds", type=above, metavar="S", help=what)
    add("--from", dest="begin", type=seconds, metavar="S", help="leaves out the first S seconds (0)")
    add("--rate", type=rates, metavar="LOW..HIGH", help="the mean rate in Mbit/s (11.5..12.5)")
    add("--peak", type=above, metavar="X", help="the highest rate of a slot, in means (8)")
    add("--gap", dest="gap_ms", type=whole(1, LIMITS["trace_ms"]), metavar="MS", help="the longest gap (100)")
    add("--slot", dest="slot_ms", type=whole(1, 10**6), metavar="MS", help="the grain of a trace (50)")
    add("--trace", metavar="FILE", help="traces are this one, with changes up to --change")
    add("--change", type=share, metavar="X", help="by which share a slot of --trace may change (0.2)")
    what = "packets that may wait, as LOW..HIGH or 1bdp..2bdp (20..250)"
    add("--queue", type=queue, metavar="RANGE", help=what)
    delay = span(0, LIMITS["delay_us"] / us, us)
    add("--delay-ms", dest="delay_us", type=delay, metavar="RANGE", help="from a chance to its answer (10..100)")
    timeout = span(0.001, LIMITS["timeout_us"] / us, us)
    add("--timeout-ms", dest="timeout_us", type=timeout, metavar="RANGE", help="how long a sender waits (1000)")
    add("--lag", type=span(0, LIMITS["lag"]), metavar="RANGE", help="acknowledgements that an answer takes (0)")
    add("--mss", type=span(1, LIMITS["segment_bytes"]), metavar="RANGE", help="bytes of a segment (1448)")
    add(
        "--mark",
        type=span(1, LIMITS["mark"]),
        metavar="RANGE",
        help="waiting packets from which on one is marked (none)",
    )
    add(
        "--losses",
        type=whole(0, 1000),
        metavar="N",
        help="the most packets that are lost beside those of the queue (0)",
    )


# ---- what they ask for


def goal_of(arguments: argparse.Namespace) -> Goal:
    """The goal that the arguments ask for."""
    if arguments.asserted:
        return asserted(arguments.asserted)
    if not arguments.goal:
        raise UsageError("one of --for GOAL and --assert 'FIGURE>=N' is expected; the goals are %s" % ", ".join(GOALS))
    return GOALS[arguments.goal]


def class_of(arguments: argparse.Namespace) -> LinkClass:
    """The class of links that the arguments ask for."""
    usual = FAULTS if arguments.goal == "fault" or (arguments.asserted or "").startswith("faults") else LinkClass()
    names = "seconds peak gap_ms slot_ms delay_us timeout_us lag mss mark losses".split()
    given = {name: getattr(arguments, name) for name in names if getattr(arguments, name) is not None}
    if arguments.queue:
        given[arguments.queue[0]] = arguments.queue[1]
    if arguments.rate:
        given["rate_mbps"] = arguments.rate
    made = replace(usual, **given)
    if made.slot_ms > 1000 * made.seconds:
        raise UsageError("--slot %d: a trace of %g s is shorter than a slot" % (made.slot_ms, made.seconds))
    if made.gap_ms < 12 / made.rate_mbps[0] and not arguments.trace:
        what = "at %g Mbit/s there are %.1f ms between two chances" % (made.rate_mbps[0], 12 / made.rate_mbps[0])
        raise UsageError("--gap %d: %s" % (made.gap_ms, what))
    if (arguments.begin or 0) >= made.seconds:
        raise UsageError(
            "--from %g: a time before that of --seconds, %g s, is expected" % (arguments.begin, made.seconds)
        )
    return near_trace(made, arguments)


def near_trace(of: LinkClass, arguments: argparse.Namespace) -> LinkClass:
    """The class of links near the trace of --trace, where there is one."""
    if not arguments.trace:
        if arguments.change is not None:
            raise UsageError("--change is of --trace FILE")
        return of
    for name, option in (("rate", "--rate"), ("peak", "--peak"), ("gap_ms", "--gap")):
        if getattr(arguments, name) is not None:
            raise UsageError("%s: the traces are that of --trace with changes, so their rates are known" % option)
    base = slots_of(read_trace(arguments.trace), of.slot_ms, of.seconds)
    mean = Link(base, 1, 0).mbps
    change = 0.2 if arguments.change is None else arguments.change
    length = sum(ms for ms, _ in base) / 1000
    return replace(of, base=base, change=change, rate_mbps=(mean, mean), seconds=min(of.seconds, length))


def effort_of(arguments: argparse.Namespace) -> Effort:
    """How the hunt goes."""
    names = "links seed minutes keep near holds search".split()
    given = {name: getattr(arguments, name) for name in names if getattr(arguments, name) is not None}
    made = replace(Effort(holds=0 if arguments.asserted else HOLDS), **given)
    if arguments.holds is not None and arguments.holds > made.near:
        raise UsageError("--holds %d: there are %d near links" % (arguments.holds, made.near))
    return made


# ---- hunt.toml

# the options that hunt.toml keeps, by their names without dashes, with the names of their values
KEPT = {
    "for": "goal",
    "assert": "asserted",
    "from": "begin",
    "gap": "gap_ms",
    "slot": "slot_ms",
    "delay-ms": "delay_us",
    "timeout-ms": "timeout_us",
}
KEPT.update({name: name for name in "against links minutes seed search keep near holds corpus seconds".split()})
KEPT.update({name: name for name in "rate peak trace change queue lag mss mark losses".split()})


# the options whose values are ranges, with what a written unit is of the value's
RANGES = {"rate": 1, "delay_us": 1000, "timeout_us": 1000, "lag": 1, "mss": 1, "mark": 1}


def toml_text(arguments: argparse.Namespace) -> str:
    """The text of hunt.toml: the sender, and each option that was given."""
    values: Dict[str, Any] = {"sender": arguments.sender}
    if arguments.portus:
        values["portus"] = ["%s=%s" % pair for pair in arguments.portus]
    given = {name: getattr(arguments, member) for name, member in KEPT.items()}
    values.update({name: written(KEPT[name], value) for name, value in given.items() if value is not None})
    lines = ["%s = %s" % (name, json.dumps(value)) for name, value in values.items()]
    return "# ccp hunt hunt.toml --out DIR\n" + "\n".join(lines) + "\n"


def written(member: str, value: Any) -> Any:
    """A value as its option is written."""
    if member == "queue":
        return range_text(value[1], "bdp" if value[0] == "queue_bdp" else "")
    return range_text([number / RANGES[member] for number in value]) if member in RANGES else value


def range_text(bounds: Sequence[float], ending: str = "") -> str:
    """LOW..HIGH, or N where both are the same."""
    return "..".join("%.15g%s" % (number, ending) for number in dict.fromkeys(bounds))


def words_of(values: Mapping[str, Any], path: str) -> List[str]:
    """The words of the command line that a file hunt.toml stands for."""
    words: List[str] = []
    for name, value in values.items():
        if name == "portus" and isinstance(value, list):
            words += [word for one in value for word in ("--portus", str(one))]
        elif name in KEPT and isinstance(value, (str, int, float)) and not isinstance(value, bool):
            words.append("--%s=%s" % (name, value))
        elif name != "sender":
            names = ", ".join(["sender", "portus", *KEPT])
            raise CcpError("%s: %s: the options are %s, each a text or a number" % (path, shown(name), names))
    if not isinstance(values.get("sender"), str):
        raise CcpError("%s: sender: a text is expected" % path)
    return [*words, "--", values["sender"]]


def with_file(arguments: argparse.Namespace) -> argparse.Namespace:
    """The arguments with those of the file hunt.toml that is given in place of a sender. What is given beside the file
    goes before it."""
    if not arguments.sender.endswith(".toml"):
        return arguments
    from ..compare.command import read_toml

    parser = Parser(prog="ccp hunt")
    add_arguments(parser)
    try:
        made = parser.parse_args(words_of(read_toml(arguments.sender), arguments.sender))
    except UsageError as error:
        raise CcpError("%s: %s" % (arguments.sender, error)) from None
    defaults = vars(parser.parse_args(["sender"]))
    given = {name: value for name, value in vars(arguments).items() if value != defaults.get(name) and name != "sender"}
    if {"goal", "asserted"} & set(given):
        made.goal = made.asserted = None
    for name, value in given.items():
        setattr(made, name, value)
    return made
