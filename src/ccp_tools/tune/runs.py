"""The links that numbers are tried on, and a program with numbers run on them."""
from __future__ import annotations

from dataclasses import dataclass, field, replace
from pathlib import Path
from typing import Any, Dict, List, Mapping, Sequence, Set, Tuple

from .. import controls, probe, program
from ..errors import CcpError, UsageError
from ..hunt.runs import Flow, flow_of
from ..probe import MeanFigures
from ..scenario import Grid, Point, most_acks
from ..scenario_files import Scenario
from ..senders import base_name
from ..spans import Link, Window
from ..traces import Trace
from .search import Choice


@dataclass
class Links(Grid):
    """A grid of one sender whose cases are links: each has as many acknowledgements as can come in `seconds_us`, and is
    named without the sender."""

    ends_with_need = True

    def acks_of(self, link: Trace, name: str, delay_us: int) -> int:
        """As many acknowledgements as any program can have in the measured time."""
        return most_acks(link, self.seconds_us or 0, self.timeout_us)

    def acks_in(self, link: Trace, length_us: int, _delay_us: int) -> int:
        """The same in a time."""
        return most_acks(link, length_us, self.timeout_us)

    def ending(self, point: Point) -> str:
        """What a link's name has after its trace."""
        return super().ending(point).replace("-" + point.sender.label, "", 1)

    def short(self) -> Scenario:
        """The scenario with only as much of each trace as the measured time needs."""
        made = self.scenario()
        self.cut_to_need(made)
        return made


@dataclass(frozen=True)
class Tuned:
    """The program that is tuned: its flow, the name of its text, and the file that it is read from."""

    flow: Flow
    name: str
    text: str

    @property
    def file(self) -> str:
        """The name of the file that has it with new numbers."""
        return self.flow.label + ".portus"


def tuned_of(word: str, path: Path, portus: Sequence[Tuple[str, str]]) -> Tuned:
    """The program of a word: a file, or a sender with one program of its own."""
    if "=" not in word and ":" not in word and Path(word).is_file():
        word = "%s=%s" % (base_name(word), word)
    flow = flow_of(word, path, portus)
    if flow.file or len(flow.texts) != 1:
        what = "%s: a program is tuned: a file of the language, or a sender with one program of its own"
        raise UsageError(what % flow.label)
    name, text = next(iter(flow.texts.items()))
    return Tuned(flow, name, text)


@dataclass
class Runner:
    """Runs a program with numbers on links, each choice once. `names` are those of the numbers."""

    tuned: Tuned
    names: Tuple[str, ...]
    scenario: Scenario
    window: Window
    path: Path
    workers: int
    known: Dict[Tuple[Choice, str], MeanFigures] = field(default_factory=dict)

    def __post_init__(self) -> None:
        self.link = Link(self.scenario)

    def text(self, choice: Choice) -> str:
        """The program with the numbers of a choice."""
        return controls.with_numbers(self.tuned.text, dict(zip(self.names, choice)))

    def figures(self, choices: Sequence[Choice], links: Sequence[Mapping[str, Any]]) -> List[List[MeanFigures]]:
        """For each choice the figures of each link, a case of the scenario."""
        new = [choice for choice in dict.fromkeys(choices) if (choice, links[0]["name"]) not in self.known]
        if new:
            # those of a link come together, so that a run has few traces
            cases = [
                {**link, **self.roles("p%d" % at), "name": "%d-%d" % (at, number)}
                for number, link in enumerate(links)
                for at in range(len(new))
            ]
            texts = {"p%d" % at: self.text(one) for at, one in enumerate(new)}
            used = {link["trace"] for link in links}
            traces = {name: text for name, text in self.scenario["traces"].items() if name in used}
            whole = {"version": 1, "programs": texts, "traces": traces, "cases": cases}
            found = probe.mean_figures(whole, self.window, program=self.path, workers=self.workers, link=self.link)
            pairs = [(one, link["name"]) for link in links for one in new]
            self.known.update((pair, replace(one, case=pair[1])) for pair, one in zip(pairs, found))
        return [[self.known[choice, link["name"]] for link in links] for choice in choices]

    def roles(self, name: str) -> Dict[str, str]:
        """The members of a case that a text of this name runs in."""
        members = self.tuned.flow.members
        return {"agent": members["agent"], **{role: name for role in ("ss", "ca") if role in members}}


def split(grid: Links, held_out: Sequence[str]) -> Tuple[List[str], List[str]]:
    """The traces of training and those held out; `held_out` are the names of those given as such. Without any it is
    every third one in the order of names, or the last of two. A trace that comes twice is a UsageError."""
    seen: Dict[Tuple[int, ...], str] = {}
    for name, times in grid.recorded.items():
        other = seen.setdefault(tuple(times), name)
        if other != name:
            both = "is in --over and in --held-out" if (name in held_out) != (other in held_out) else "is there twice"
            raise UsageError("the trace %s %s (as %s): each link counts once" % (name, both, other))
    names = list(grid.recorded)
    out: Set[str] = set(held_out)
    if not out:
        ordered = sorted(names)
        if len(names) < 2:
            raise UsageError("one trace: --held-out TRACE names another one, on which the new numbers are checked")
        out = set(ordered[2::3] or ordered[-1:])
    return [name for name in names if name not in out], [name for name in names if name in out]


def check_window(window: Window) -> None:
    """Refuses a window of time in which nothing is measured."""
    if window.until_us is not None and window.begin_us >= window.until_us:
        raise UsageError("--from %g: --seconds is %g" % (window.begin_us / 1e6, window.until_us / 1e6))


def check_numbers(tuned: Tuned, choices: Sequence[Choice], names: Sequence[str], path: Path) -> None:
    """Refuses a program that `ccp` doesn't accept with some numbers."""
    for choice in choices:
        text = controls.with_numbers(tuned.text, dict(zip(names, choice)))
        ran = program.run("check", text, program=path, check=False)
        if ran.status:
            numbers = ", ".join("%s=%d" % pair for pair in zip(names, choice))
            raise CcpError("%s with %s: %s" % (tuned.file, numbers, ran.errors.partition("refused: ")[2].strip()))
