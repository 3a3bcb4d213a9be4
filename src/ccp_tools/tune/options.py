"""The words of `ccp tune`: its options, and tune.toml, which keeps them."""
from __future__ import annotations

import argparse
import re
from typing import Any, Dict, List, Mapping, Tuple

from ..arguments import Parser, add_ccp, add_portus, group_of, list_of, shown, whole
from ..controls import MOST
from ..errors import CcpError, UsageError
from ..files import name_of
from ..scenario import add_flows, add_link, grid_of, link_values, seconds, trace
from ..senders import sender
from ..toml_files import read_toml, toml_lines
from .goals import BOUNDLESS, GOALS, floor
from .runs import Links, Tuned
from .search import SEARCHES, Space

# the defaults: trials, the seed, and the measured time in microseconds
TRIALS, SEED, SECONDS_US = 100, 1, 5_000_000
WORD = r"[A-Za-z_][A-Za-z0-9_.]*"
# the options that a file keeps as they stand, by the names of their values
KEPT = ("goal", "trials", "seed", "search", "mss", "slots", "lag")


def number(text: str) -> Tuple[str, Tuple[int, int]]:
    """A parser of NAME=LOW..HIGH."""
    found = re.fullmatch(r"\s*(%s)\s*=\s*([0-9]{1,20})\s*\.\.\s*([0-9]{1,20})\s*" % WORD, text)
    if not found or not int(found[2]) < int(found[3]) <= MOST:
        raise argparse.ArgumentTypeError("%s isn't NAME=LOW..HIGH with whole numbers, LOW below HIGH" % shown(text))
    return found[1], (int(found[2]), int(found[3]))


def order(text: str) -> Tuple[str, str]:
    """A parser of LOWER<HIGHER."""
    found = re.fullmatch(r"\s*(%s)\s*<\s*(%s)\s*" % (WORD, WORD), text)
    if not found:
        raise argparse.ArgumentTypeError("%s isn't of the form low<high, with names of --numbers" % shown(text))
    return found[1], found[2]


# ---- options


def add_arguments(parser: argparse.ArgumentParser) -> None:
    """Adds the arguments of `ccp tune`."""
    what = "the program: FILE.portus, or a sender with one program of its own; or a file tune.toml"
    parser.add_argument("sender", metavar="PROGRAM", help=what)
    add_portus(parser)
    add_search(group_of(parser, "search"))
    group = group_of(parser, "link")
    traces, add = "[NAME=]TRACE", group.add_argument
    add("--over", nargs="+", type=trace, default=[], metavar=traces, help="the traces of training")
    what = "traces on which the new numbers are checked (every third one of --over)"
    add("--held-out", nargs="+", type=trace, default=[], metavar=traces, help=what)
    add_link(group)
    add_flows(group)
    add = group_of(parser, "length").add_argument
    what = "what is measured of each link (%g)" % (SECONDS_US / 1e6)
    add("--seconds", type=seconds, metavar="S", help=what)
    add("--from", dest="begin", type=seconds, metavar="S", help="leaves out the first S seconds, as slow start (0)")
    output = group_of(parser, "output")
    output.add_argument("--out", metavar="DIR", help="the folder that gets the files (none)")
    workers = "threads of a run; what is found doesn't depend on it (one for each processor)"
    output.add_argument("--workers", type=whole(1, 32), metavar="N", help=workers)
    add_ccp(output)


def add_search(group: argparse._ArgumentGroup) -> None:
    """Adds what is looked for, and how."""
    add = group.add_argument
    what = "the numbers and their ranges: control variables that the program declares"
    add("--numbers", type=list_of(number), metavar="NAME=LOW..HIGH,..", help=what)
    add("--order", type=list_of(order), default=[], metavar="'LOW<HIGH'", help="a number that is less than another one")
    add("--goal", choices=GOALS, help="what is to be better (power)")
    what = "what has to hold on each training link, as 'utilization>=0.9' (again for another one)"
    add("--floor", type=floor, action="append", default=[], metavar="FIGURE>=N", help=what)
    add("--trials", type=whole(1, 10**6), metavar="N", help="choices of numbers that are tried (%d)" % TRIALS)
    add("--seed", type=whole(0, 2**32 - 1), metavar="N", help="another seed is another search (%d)" % SEED)
    what = "how numbers are chosen: chance and then steps, or Optuna where it is installed (chance)"
    add("--search", choices=SEARCHES, help=what)


# ---- what they ask for


def space_of(arguments: argparse.Namespace) -> Space:
    """The choices of numbers that the arguments ask for."""
    if not arguments.numbers:
        raise UsageError("--numbers NAME=LOW..HIGH,.. is expected")
    names = [name for name, _ in arguments.numbers]
    twice = next((name for name in names if names.count(name) > 1), None)
    if twice:
        raise UsageError("--numbers: %s is there twice" % twice)
    for pair in arguments.order:
        unknown = next((name for name in pair if name not in names), None)
        if unknown:
            raise UsageError("--order %s<%s: --numbers has no %s" % (*pair, unknown))
    made = Space(tuple(names), tuple(range_ for _, range_ in arguments.numbers), tuple(arguments.order))
    ranges = dict(arguments.numbers)
    for lower, higher in arguments.order:
        if lower == higher or ranges[lower][0] >= ranges[higher][1]:
            raise UsageError("--order %s<%s: no numbers of these ranges keep it" % (lower, higher))
    return made


def check_goal(arguments: argparse.Namespace) -> None:
    """Refuses a goal that gives up all else without a floor."""
    if arguments.goal in BOUNDLESS and not arguments.floor:
        bound = "utilization>=0.9" if arguments.goal == "wait" else "queueing_mean_ms<=20"
        raise UsageError(
            "--goal %s needs a floor, as --floor '%s': else all is given up for it" % (arguments.goal, bound)
        )


def links_of(arguments: argparse.Namespace, tuned: Tuned) -> Links:
    """The grid of all links, those of training before those held out."""
    if not arguments.over:
        raise UsageError("--over TRACE.. is expected")
    one = sender("%s=%s" % (tuned.flow.label, tuned.flow.members["agent"]))
    plain = dict(vars(arguments), mode="campaign", whole=True, traces=[*arguments.over, *arguments.held_out])
    plain.update(quiet=True, senders=[one], portus=[], seconds=arguments.seconds or SECONDS_US)
    plain.update(dict.fromkeys(("steps", "cwnd", "shared", "start", "acks", "cut", "aggregate")))
    return Links(**vars(grid_of(argparse.Namespace(**plain))))


# ---- tune.toml


def toml_text(arguments: argparse.Namespace, grid: Links) -> str:
    """The text of tune.toml: the program, and each option that was given."""
    values: Dict[str, Any] = {"program": arguments.sender, "portus": ["%s=%s" % pair for pair in arguments.portus]}
    values["numbers"] = ["%s=%d..%d" % (name, *bounds) for name, bounds in arguments.numbers]
    values["order"] = ["%s<%s" % pair for pair in arguments.order]
    for name in ("over", "held_out"):
        traces = ["%s=%s" % (label, path) if label else path for label, path in getattr(arguments, name)]
        values[name.replace("_", "-")] = traces
    values["floor"] = [one.text for one in arguments.floor]
    values.update((name, getattr(arguments, name)) for name in KEPT)
    values.update(link_values(arguments, grid))
    values["timeout-ms"] = arguments.timeout_ms and arguments.timeout_ms / 1000
    for name, us in (("seconds", arguments.seconds), ("from", arguments.begin)):
        values[name] = us and us / 1e6
    return "# ccp tune tune.toml --out DIR\n" + toml_lines(values)


def words_of(values: Mapping[str, Any], path: str) -> List[str]:
    """The words of the command line that a file tune.toml stands for."""
    words: List[str] = []
    for name, value in values.items():
        parts = [str(part) for part in (value if isinstance(value, list) else [value])]
        if name == "program" or name in ("out", "ccp"):
            continue
        if name in ("over", "held-out"):
            words += ["--" + name, *parts]
        elif name in ("portus", "floor"):
            words += ["--%s=%s" % (name, part) for part in parts]
        else:
            words.append("--%s=%s" % (name, ",".join(parts)))
    if not isinstance(values.get("program"), str):
        raise CcpError("%s: program: a text is expected" % name_of(path))
    return [*words, "--", str(values["program"])]


def with_file(arguments: argparse.Namespace) -> argparse.Namespace:
    """The arguments with those of the file tune.toml that is given in place of a program. What is given beside the file
    goes before it."""
    path = arguments.sender
    if not path.endswith(".toml"):
        return arguments
    parser = Parser(prog="ccp tune")
    add_arguments(parser)
    values = read_toml(path)
    for name in ("out", "ccp"):
        if name in values:
            raise CcpError("%s: %s: the command line alone says where files go and which program runs" % (path, name))
    try:
        made = parser.parse_args(words_of(values, path))
    except UsageError as error:
        raise CcpError("%s: %s" % (name_of(path), error)) from None
    defaults = vars(parser.parse_args(["program"]))
    for name, value in vars(arguments).items():
        if name != "sender" and value != defaults.get(name):
            setattr(made, name, value)
    return made
