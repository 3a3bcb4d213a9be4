"""The command `ccp tune`."""
from __future__ import annotations

import argparse
import json
import random
import re
import sys
import time
from contextlib import nullcontext
from dataclasses import dataclass
from pathlib import Path
from typing import Any, ContextManager, Dict, List, Mapping, Sequence, Tuple

from .. import controls, program, result_folder
from ..arguments import warn
from ..probe import MeanFigures
from ..spans import Window
from . import goals, options, runs, search
from .runs import Runner
from .search import Choice, Space, Trials

# what a gain may cost on a held-out link: a ratio below this one is more
LEAST_RATIO = 0.95
TEXTS = ("table.txt", "tune.json", "tune.toml")
# the figures of the table: the heading, the factor and the decimals
SHOWN = {
    "throughput_mbps": ("Mbit/s", 1, 2),
    "queueing_mean_ms": ("wait ms", 1, 1),
    "loss_rate": ("lost %", 100, 2),
    "utilization": ("used %", 100, 1),
}


@dataclass
class Outcome:
    """What tuning found. The figures are those of the program's own numbers and of the best ones, link by link."""

    space: Space
    goal: str
    floors: Sequence[goals.Floor]
    own: Choice
    best: Choice
    training: List[List[MeanFigures]]
    held_out: List[List[MeanFigures]]

    def ratios(self, figures: Sequence[Sequence[MeanFigures]]) -> List[float]:
        """The ratio of the goal on each link."""
        return goals.gains(self.goal, figures[0], figures[1])

    def doubts(self) -> List[str]:
        """Why the new numbers are no improvement; nothing where they are one."""
        if self.best == self.own:
            return ["no numbers are better than the program's own on the training links"]
        ratios = self.ratios(self.held_out)
        made = [
            "%s is %.1f %% worse on the held-out link %s" % (self.goal, 100 * (1 - ratio), link.case)
            for ratio, link in zip(ratios, self.held_out[1])
            if ratio < LEAST_RATIO
        ]
        mean = goals.geometric_mean(ratios)
        if mean <= 1:
            made.append("%s is x%.3f on the held-out links in the mean" % (self.goal, mean))
        made += ["it faults on the held-out link %s" % link.case for link in self.held_out[1] if link.faults]
        return made + self.missed()

    def missed(self) -> List[str]:
        """The floors that the new numbers miss: on a training link, or by more than before on one that is held out."""
        return [
            "the %s link %s misses the floor %s" % (kind, link.case, one.text)
            for kind, (own, tuned) in (("training", self.training), ("held-out", self.held_out))
            for before, link in zip(own, tuned)
            for one in self.floors
            if one.short(link) > (one.short(before) if kind == "held-out" else 0)
        ]


def run(arguments: argparse.Namespace) -> int:
    """Runs `ccp tune`."""
    arguments = options.with_file(arguments)
    space = options.space_of(arguments)
    options.check_goal(arguments)
    begun = time.monotonic()
    runner, links, grid = prepared(arguments, space)
    with opened(arguments.out, runner.tuned.file) as folder:
        trials = searched(arguments, space, runner, links["training"])
        found = outcome_of(arguments, space, runner, trials, links)
        doubts, text = found.doubts(), report(found, runner.tuned.file)
        if folder:
            files = {"table.txt": text, "tune.toml": options.toml_text(arguments, grid)}
            files["tune.json"] = json.dumps(data_of(found, trials, runner, doubts), indent=1) + "\n"
            for name, content in {**files, runner.tuned.file: runner.text(found.best)}.items():
                folder.write(name, content)
            folder.keep()
    sys.stdout.write(text)
    if not arguments.quiet:
        counts = (len(trials.tried) - 1, len(runner.known), time.monotonic() - begun)
        program.note("ccp tune: %d trials, %d cases in %.1f s" % counts)
        if doubts:
            warn("no improvement: " + "; ".join(doubts))
    return int(bool(doubts))


def opened(path: str | None, name: str) -> ContextManager[result_folder.Folder | None]:
    """The folder at a path, in the place of what an earlier run wrote there; None where no path is given. `name` is
    that of the tuned program."""
    if path is None:
        return nullcontext()
    return result_folder.opened(Path(path), re.compile("|".join(map(re.escape, (*TEXTS, name)))))


# ---- what is run


def prepared(
    arguments: argparse.Namespace, space: Space
) -> Tuple[Runner, Dict[str, List[Mapping[str, Any]]], runs.Links]:
    """What runs the program, the links of training and those held out, and their grid."""
    path = program.find_program(arguments.ccp)
    tuned = runs.tuned_of(arguments.sender, path, arguments.portus)
    own = tuple(controls.number_of(tuned.text, name, tuned.file) for name in space.names)
    runs.check_numbers(tuned, [own, tuple(high for _, high in space.ranges)], space.names, path)
    grid = options.links_of(arguments, tuned)
    window = Window(arguments.begin or 0, grid.seconds_us)
    runs.check_window(window)
    scenario = grid.short()
    training, held_out = runs.split(grid, list(grid.recorded)[len(arguments.over) :])
    if not arguments.held_out and not arguments.quiet:
        program.note("ccp tune: held out: %s" % ", ".join(held_out))
    kinds = {"training": training, "held out": held_out}
    links = {kind: [one for one in scenario["cases"] if one["trace"] in names] for kind, names in kinds.items()}
    workers = arguments.workers or program.processors()
    return Runner(tuned, space.names, scenario, window, path, workers), links, grid


def searched(arguments: argparse.Namespace, space: Space, runner: Runner, links: Sequence[Mapping[str, Any]]) -> Trials:
    """The trials, the program's own numbers before all."""
    goal, floors = arguments.goal or "power", arguments.floor

    def rates(choices: Sequence[Choice]) -> List[goals.Rating]:
        return [goals.rating(one, goal, floors) for one in runner.figures(choices, links)]

    seed = options.SEED if arguments.seed is None else arguments.seed
    trials = Trials(space, rates, random.Random(seed))
    trials.rate([tuple(controls.number_of(runner.tuned.text, name) for name in space.names)])
    search.SEARCHES[arguments.search or "chance"](trials, arguments.trials or options.TRIALS)
    return trials


def outcome_of(
    arguments: argparse.Namespace,
    space: Space,
    runner: Runner,
    trials: Trials,
    links: Mapping[str, Sequence[Mapping[str, Any]]],
) -> Outcome:
    """What the trials found, with the figures before and after on all links."""
    both = [next(iter(trials.tried)), trials.best]
    training, held_out = (runner.figures(both, links[kind]) for kind in ("training", "held out"))
    return Outcome(space, arguments.goal or "power", arguments.floor, both[0], both[1], training, held_out)


# ---- what is printed


def report(found: Outcome, name: str) -> str:
    """What is printed: the numbers and the gains in two lines, and a table of all links."""
    pairs = zip(found.space.names, found.own, found.best)
    numbers = ", ".join("%s %d -> %d" % one if one[1] != one[2] else "%s %d" % one[:2] for one in pairs)
    means = [
        "%s x%.3f" % (kind, goals.geometric_mean(found.ratios(figures)))
        for kind, figures in (("training", found.training), ("held out", found.held_out))
    ]
    verdict = "no improvement" if found.doubts() else "an improvement"
    mean = "%s, geometric mean of the links: %s" % (found.goal, ", ".join(means))
    return "%s: %s: %s\n%s\n%s" % (name, numbers, verdict, mean, table(found))


def table(found: Outcome) -> str:
    """A line for each link: the ratio of the goal, and figures before and after."""
    rows = [["link", "kind", found.goal, *(head for head, _, _ in SHOWN.values())]]
    for kind, figures in (("training", found.training), ("held out", found.held_out)):
        for ratio, before, after in zip(found.ratios(figures), *figures):
            rows.append([before.case, kind, "x%.3f" % ratio, *(change(name, before, after) for name in SHOWN)])
    widths = [max(len(row[at]) for row in rows) for at in range(len(rows[0]))]
    lines = ["  ".join([*map(str.ljust, row[:2], widths), *map(str.rjust, row[2:], widths[2:])]) for row in rows]
    return "\n".join(lines) + "\n"


def change(name: str, before: MeanFigures, after: MeanFigures) -> str:
    """A figure before and after, as the table has it."""
    _, factor, decimals = SHOWN[name]
    values = [getattr(one, name) for one in (before, after)]
    return " -> ".join("none" if value is None else "%.*f" % (decimals, factor * value) for value in values)


# ---- the folder


def data_of(found: Outcome, trials: Trials, runner: Runner, doubts: Sequence[str]) -> Dict[str, Any]:
    """All of it as data: the numbers, the doubts, each trial, and each link before and after."""
    names = found.space.names
    data: Dict[str, Any] = {"program": runner.tuned.file, "sha256": program.identity(runner.path).sha256}
    data.update(goal=found.goal, floors=[one.text for one in found.floors])
    data.update(own=dict(zip(names, found.own)), tuned=dict(zip(names, found.best)))
    data.update(is_improvement=not doubts, doubts=list(doubts))
    for kind, figures in (("training", found.training), ("held_out", found.held_out)):
        ratios = found.ratios(figures)
        data[kind] = [
            {"link": old.case, "ratio": ratio, "before": figures_data(old), "after": figures_data(new)}
            for ratio, old, new in zip(ratios, *figures)
        ]
    data["trials"] = [
        {"numbers": dict(zip(names, choice)), "short": -rated.short, "score": rated.score}
        if rated != goals.FAULTY
        else {"numbers": dict(zip(names, choice)), "faults": True}
        for choice, rated in trials.tried.items()
    ]
    return data


def figures_data(one: MeanFigures) -> Dict[str, Any]:
    """The figures of a link that are there."""
    return {name: value for name, value in vars(one).items() if value is not None and name != "case"}
