"""Runs many links with some senders, and has the figures of each by the names of `ccp metrics`.

    Measured    programs that measure themselves, over the same seconds for all senders
    Tables      the table of a campaign: faults, and no delays
    Shared      two flows over one link
    Outside     an agent of a Python file, by a fresh agent for each link, beside others

A run takes as many links as the limits of `ccp` allow. With several workers runs are made by forked processes, and
what they give doesn't depend on how many there are."""
from __future__ import annotations

import argparse
import os
import pickle
import re
import signal
from contextlib import suppress
from dataclasses import dataclass, field
from pathlib import Path
from typing import Any, Dict, Iterator, List, Mapping, Sequence, Tuple

from .. import probe, program, senders, spans, texts
from ..errors import CcpError, cut
from ..scenario_files import Scenario
from ..tables import LIMITS, MODES
from .links import Link, LinkClass

Figures = Mapping[str, Any]
# a window that stays as it is, whatever happens
WINDOW = "(def (mss 1)) (when true (:= Cwnd (* %d mss)))"
# about how many bytes of a scenario a run is given, and the bytes of a chance and of a case
PART_BYTES, CHANCE_BYTES, CASE_BYTES = 1_000_000, 6, 300
# acknowledgements of a case in which faults are looked for
FAULT_ACKS = 2000
# the time of a round over a shared link, in microseconds
QUANTUM_US = 1000


@dataclass(frozen=True)
class Flow:
    """A sender: its label, the members of its case, and the texts of its programs by their names. `file` is that of an
    agent outside."""

    label: str
    members: Mapping[str, str]
    texts: Mapping[str, str] = field(default_factory=dict)
    file: str | None = None


def flow_of(word: str, path: Path, portus: Sequence[Tuple[str, str]] = ()) -> Flow:
    """The sender of a word, as --senders takes one; FILE.portus alone has the file's name as its label. `window:N` is a
    window of N segments that stays. A CcpError where there is none, or `ccp` refuses its programs."""
    if word.startswith("window:"):
        name, count = word.replace(":", "-"), word.partition(":")[2]
        if not re.fullmatch("[1-9][0-9]{0,3}", count):
            raise CcpError("%s: window:N has 1 to 9999 segments" % cut(word))
        return Flow(name, {"agent": "reno", "ss": name, "ca": name}, {name: WINDOW % int(count)})
    if word.endswith(".portus") and "=" not in word and ":" not in word:
        word = "%s=%s" % (senders.base_name(word), word)
    try:
        one = senders.sender(word, accepts_outside=True)
    except argparse.ArgumentTypeError as error:
        raise CcpError(str(error)) from None
    if one.file:
        return Flow(one.label, {"agent": next(iter(probe.BUILT_IN))}, {}, one.file)
    found, read = senders.resolved([one], portus)
    files = senders.files_of([one], portus)
    for name, text in read.items():
        if not probe.is_accepted(text, path):
            reason = program.run("check", text, program=path, check=False).errors.strip()
            file = files.get(name, name)
            raise CcpError("%s: %s; `ccp explain %s` shows the line" % (file, reason.partition("refused: ")[2], file))
    roles = {"agent": one.agent, "ss": found[0].slow, "ca": found[0].avoid}
    used = {role: name for role, name in roles.items() if name}
    return Flow(one.label, used, {name: text for name, text in read.items() if name in used.values()})


def scenario_of(link: Link, flows: Sequence[Flow], acks: int) -> Scenario:
    """A scenario of senders on one link."""
    programs = {name: text for one in flows for name, text in one.texts.items()}
    cases = [
        {"name": one.label, **one.members, **link.case("found", acks), "sender": one.label}
        for one in flows
        if not one.file
    ]
    return {"version": 1, "programs": programs, "traces": {"found": link.trace()}, "cases": cases}


# ---- in parts


class Runs:
    """What all kinds of runs have in common: `of_part` runs at most `most` links at once."""

    most = 64

    def __init__(self, flows: Sequence[Flow], of: LinkClass, path: Path, workers: int = 1) -> None:
        self.flows, self.of, self.path, self.workers = list(flows), of, path, workers

    def of_part(self, part: Sequence[Link], count: int) -> List[List[Figures]]:
        """The figures of each link of a part, for the first `count` senders."""
        raise NotImplementedError

    def scenario(self, link: Link, flows: Sequence[Flow]) -> Scenario:
        """The scenario of a link and some of the senders, for everybody to read."""
        return scenario_of(link, flows, self.acks(link))

    def acks(self, link: Link) -> int:
        """The acknowledgements of a case."""
        return self.of.acks(link)

    def figures(self, links: Sequence[Link], count: int | None = None) -> List[List[Figures]]:
        """The figures of each link, for the first `count` senders, or for all."""
        flows = count or len(self.flows)
        parts = list(self.parts(links))
        if self.workers > 1 and len(parts) > 1:
            found = self.forked(parts, flows)
        else:
            found = [self.of_part(part, flows) for part in parts]
        return [one for part in found for one in part]

    def parts(self, links: Sequence[Link]) -> Iterator[List[Link]]:
        """Links in parts of as many as a run takes, and as are enough for the workers."""
        size = max(1, min(self.most, -(-len(links) // self.workers)))
        part: List[Link] = []
        used = 0
        for link in links:
            more = CHANCE_BYTES * link.total + CASE_BYTES * len(self.flows)
            if part and (len(part) >= size or used + more > PART_BYTES):
                yield part
                part, used = [], 0
            part.append(link)
            used += more
        if part:
            yield part

    def forked(self, parts: Sequence[List[Link]], flows: int) -> List[List[List[Figures]]]:
        """The figures of each part, by processes that are forked for them. They end with their parts: processes that
        wait for more would need threads here, and a fork beside threads may never go on."""
        count = min(self.workers, len(parts))
        children = [begun(self, parts[at::count], flows) for at in range(count)]
        found: List[List[List[Figures]]] = [[] for _ in parts]
        try:
            for at, (_, end) in enumerate(children):
                with os.fdopen(end, "rb") as file:
                    found[at::count] = checked(file.read())
        finally:
            for pid, _ in children:
                with suppress(ProcessLookupError):
                    os.kill(pid, signal.SIGKILL)
                os.waitpid(pid, 0)
        return found

    def whole(self, part: Sequence[Link], count: int) -> Scenario:
        """The scenario of a part: a case for each link and sender."""
        flows = self.flows[:count]
        programs = {name: text for one in flows for name, text in one.texts.items()}
        cases = [
            {"name": "%d-%d" % (at, number), **one.members, **link.case(str(at), self.acks(link))}
            for at, link in enumerate(part)
            for number, one in enumerate(flows)
        ]
        return {"version": 1, "programs": programs, "traces": dict(traces_of(part)), "cases": cases}


def begun(runs: Runs, parts: Sequence[List[Link]], flows: int) -> Tuple[int, int]:
    """A process that runs parts: its number, and the end of a pipe from which their figures come, pickled."""
    end, into = os.pipe()
    pid = os.fork()
    if pid:
        os.close(into)
        return pid, end
    try:
        # interrupts are the business of the process that forked this one
        signal.signal(signal.SIGINT, signal.SIG_IGN)
        os.close(end)
        with os.fdopen(into, "wb") as file:
            pickle.dump(tried(runs, parts, flows), file)
    finally:
        os._exit(0)


def tried(runs: Runs, parts: Sequence[List[Link]], flows: int) -> Tuple[List[List[List[Figures]]], str, int]:
    """The figures of parts, or the line and the status of an error."""
    try:
        return [runs.of_part(part, flows) for part in parts], "", 0
    except CcpError as error:
        return [], str(error), error.status


def checked(data: bytes) -> List[List[List[Figures]]]:
    """The figures of parts as a process sent them; an error is raised here."""
    if not data:
        raise CcpError("a process that ran links ended early")
    figures, line, status = pickle.loads(data)
    if status:
        raise CcpError(line, status)
    made: List[List[List[Figures]]] = figures
    return made


def traces_of(links: Sequence[Link]) -> Iterator[Tuple[str, str]]:
    """The traces of links, by their numbers."""
    for at, link in enumerate(links):
        yield str(at), link.trace()


class Chances(spans.Link):
    """The chances of links, by their numbers: worked out from their pieces, without reading the traces."""

    def __init__(self, links: Sequence[Link]) -> None:
        super().__init__({})
        self.links = links

    def chances(self, name: str, until_us: int, begin_us: int = 0) -> int:
        link = self.links[int(name)]
        return link.chances(until_us) - (link.chances(begin_us) if begin_us else 0)


def grouped(rows: Sequence[Figures], size: int) -> List[List[Figures]]:
    """Rows in groups of a size."""
    return [list(rows[at : at + size]) for at in range(0, len(rows), size)]


# ---- each sender with the link for itself


class Measured(Runs):
    """Senders whose programs measure themselves, each over the same window of time."""

    def __init__(self, flows: Sequence[Flow], of: LinkClass, path: Path, workers: int = 1, begin_us: int = 0) -> None:
        super().__init__(flows, of, path, workers)
        self.window = spans.Window(begin_us, int(1_000_000 * of.seconds))
        self.most = max(1, (MODES["timeline"].cases or 1) // len(flows))

    def of_part(self, part: Sequence[Link], count: int) -> List[List[Figures]]:
        found = probe.mean_figures(
            self.whole(part, count), self.window, program=self.path, workers=1, link=Chances(part)
        )
        timeouts = [link.timeout_us for link in part for _ in range(count)]
        return grouped([with_stalls(dict(vars(one)), us) for one, us in zip(found, timeouts)], count)


def with_stalls(figures: Dict[str, Any], timeout_us: int) -> Figures:
    """The figures of a case with the share of its span that it spent in timeouts."""
    if figures["span_s"]:
        figures["stalled"] = figures["timeouts"] * timeout_us / 1e6 / figures["span_s"]
    return figures


class Tables(Runs):
    """Senders of which the table is enough: `faults`, and `peak`, the greatest window in bytes."""

    most = 128

    def acks(self, link: Link) -> int:
        return FAULT_ACKS

    def of_part(self, part: Sequence[Link], count: int) -> List[List[Figures]]:
        whole = self.whole(part, count)
        rows: List[Figures] = []
        for _, text in probe.runs_of(whole, "campaign", range(len(whole["cases"])), self.path, 1):
            rows += texts.read_table(text).rows
        return grouped(rows, count)


# ---- others


def shared_figures(scenario: Scenario, path: Path) -> List[Figures]:
    """The figures of flows on one link: the `share` of each, its throughput, and what it lost. This is the only place
    that knows how such flows are run."""
    shared = scenario["shared"]
    table = texts.read_table(program.run("shared", scenario, program=path).output)
    whole = sum(row["acked"] for row in table.rows) or 1
    return [
        {
            "share": row["acked"] / whole,
            "throughput_mbps": 8 * row["acked"] / (shared["rounds"] * shared["quantum_us"]),
            "loss_rate": row["lost"] / max(1, row["acks"] - row["timeouts"] + row["lost"]),
            **{name: row[name] for name in ("lost", "timeouts", "faults")},
        }
        for row in table.rows
    ]


class Shared(Runs):
    """Flows over one link, which share it. Each link is a run."""

    most = 16

    def scenario(self, link: Link, flows: Sequence[Flow]) -> Scenario:
        made = scenario_of(link, flows, LIMITS["acks"])
        for case in made["cases"]:
            case["acks"] = min(LIMITS["acks"], LIMITS["acks_in_all"] // len(flows))
        rounds = max(1, min(LIMITS["rounds"], int(1_000_000 * self.of.seconds) // QUANTUM_US))
        made["shared"] = {"trace": "found", "queue": link.queue, "quantum_us": QUANTUM_US, "rounds": rounds}
        return made

    def of_part(self, part: Sequence[Link], count: int) -> List[List[Figures]]:
        return [shared_figures(self.scenario(link, self.flows), self.path) for link in part]


class Outside(Runs):
    """An agent outside, the first of the senders, and others that measure themselves. Each link has a fresh agent, so
    what it does there doesn't depend on the links before, as far as it has no chance in it."""

    most = 8

    def __init__(self, flows: Sequence[Flow], of: LinkClass, path: Path, workers: int = 1, begin_us: int = 0) -> None:
        super().__init__(flows, of, path, workers)
        self.window = spans.Window(begin_us, int(1_000_000 * of.seconds))
        self.others = Measured(flows[1:], of, path, 1, begin_us) if len(flows) > 1 else None

    def of_part(self, part: Sequence[Link], count: int) -> List[List[Figures]]:
        own = [self.of_agent(link) for link in part]
        others = self.others.figures(part) if self.others and count > 1 else [[] for _ in part]
        return [[one, *more] for one, more in zip(own, others)]

    def driven(self, link: Link) -> Any:
        """The run of a fresh agent on a link."""
        from ..drive.agents import run_file

        case = {"name": self.flows[0].label, **self.flows[0].members, **link.case("found", self.acks(link))}
        scenario = {"version": 1, "traces": {"found": link.trace()}, "cases": [case]}
        return run_file(str(self.flows[0].file), scenario, program=self.path)

    def of_agent(self, link: Link) -> Figures:
        """The figures of the agent on a link."""
        from ..frames import acks_in

        made = self.driven(link)
        row = texts.read_table(made.text("drive-table")).rows[0]
        frame = next(iter(acks_in(made.text("drive-acks")))).frame
        case = {"name": self.flows[0].label, **link.case("0", self.acks(link))}
        found = probe.figures_of_frame(case, row, frame, Chances([link]), self.window)
        return with_stalls(dict(vars(found)), link.timeout_us)
