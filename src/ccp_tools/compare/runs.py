"""Runs the cases of a comparison, checks the timeline, and computes the figures. Every text is read once."""

from __future__ import annotations

import re
import sys
import time
from dataclasses import dataclass, field
from pathlib import Path
from typing import Any, Dict, Iterable, Iterator, List, Mapping

import pandas as pd

from .. import metrics, program, texts
from ..errors import CcpError
from ..files import append_text, write_text
from ..frames import AckFrame, Timeline, acks_in, timeline_of
from ..metrics import Window
from ..scenario_files import scenario_text
from ..tables import COLUMNS, LIMITS, SUMS
from .cases import outside_of, parts_of
from .outside import OF_DRIVE, Recording, record, recording_path


@dataclass
class Results:
    """What the runs of a comparison gave: a row of figures a case, what is plotted of the cases that are shown, in how
    many parts those ran that the judge said yes to, and the recordings of agents outside. Flows have the numbers of
    their cases."""

    figures: pd.DataFrame
    timelines: List[Timeline] = field(default_factory=list)
    acks: Dict[int, AckFrame] = field(default_factory=dict)
    parts: int = 0
    recordings: List[Recording] = field(default_factory=list)


@dataclass
class Progress:
    """Lines of progress on standard error."""

    is_quiet: bool
    begun: float = field(default_factory=time.monotonic)

    def say(self, what: str) -> None:
        """Prints a line with the seconds since the beginning, unless --quiet was given."""
        if not self.is_quiet:
            elapsed = time.monotonic() - self.begun
            print("ccp compare: %.0f s: %s" % (elapsed, what), file=sys.stderr, flush=True)


@dataclass
class Runner:
    """Runs parts of a scenario, and writes what they print to a folder as if it were one run. `outside` has the files
    of agents outside by their senders' labels."""

    program: Path
    folder: Path
    progress: Progress
    outside: Mapping[str, str] = field(default_factory=dict)
    rows: List[Dict[str, Any]] = field(default_factory=list)
    recording: Recording | None = None

    def run(
        self, scenario: Mapping[str, Any], windows: Mapping[str, Window], answered: Iterable[str], shown: Iterable[int]
    ) -> Results:
        """Runs all cases. `windows` maps a trace to its window of time, `answered` are the senders whose agent is
        meant to change their program, and `shown` the numbers of the cases that are plotted."""
        parts, wanted = parts_of(dict(scenario)), set(shown)
        found, results = [], Results(pd.DataFrame())
        for number, (first, part) in enumerate(parts, 1):
            self.name = "part %d of %d: " % (number, len(parts)) if len(parts) > 1 else ""
            self.begin(part, results)
            table = self.table(part)
            timeline = self.timeline(part, first)
            text = self.output("acks", part)
            append_text(self.folder / "acks.txt", renumbered(text, first))
            self.progress.say(self.name + "figures")
            flows = kept(acks_in(text), first, wanted, results.acks)
            found.append(
                metrics.figures(part, table=table, timeline=timeline, acks=flows, window=windows, answered=answered)
            )
            results.timelines.append(timeline)
        results.figures = pd.concat(found, ignore_index=True)
        write_text(self.folder / "table.txt", table_text(self.rows))
        return results

    def begin(self, part: Mapping[str, Any], results: Results) -> None:
        """Lets an agent outside drive the flows of a part, where they are its own."""
        label, self.recording = outside_of(part["cases"][0]), None
        if not label:
            results.parts += 1
            return
        self.progress.say("%s%s drives %s" % (self.name, label, size_of(part)))
        path = recording_path(self.folder, label, [one.label for one in results.recordings].count(label))
        self.recording = record(label, self.outside[label], part, path, self.program)
        results.recordings.append(self.recording)

    def output(self, mode: str, part: Mapping[str, Any]) -> str:
        """What a mode prints of a part, or its kin of `drive` of the part's recording."""
        mode = mode if self.recording is None else OF_DRIVE[mode]
        self.progress.say("%s%s of %s" % (self.name, mode, size_of(part)))
        if self.recording is not None:
            return program.run(mode, self.recording.data, program=self.program).output
        return program.run(mode, part, program=self.program, workers=program.processors()).output

    def table(self, part: Mapping[str, Any]) -> texts.Table:
        """The table that `campaign` prints of a part. Its rows are kept."""
        made = texts.read_table(self.output("campaign", part))
        self.rows += made.rows
        return made

    def timeline(self, part: Mapping[str, Any], first: int) -> Timeline:
        """The timeline of a part, which `audit` has to say yes to. That of an agent outside isn't judged: it is worked
        out from its recording."""
        text = self.output("timeline", part)
        if self.recording is None:
            self.audit(text, part, first)
        append_text(self.folder / "timeline.txt", renumbered(text, first))
        made = timeline_of(texts.flows_in(text))
        for frame in (made.reports, made.faults, made.epochs, made.ends):
            frame["flow"] += first
        return made

    def audit(self, text: str, part: Mapping[str, Any], first: int) -> None:
        """Asks `audit` whether a timeline is one of a part."""
        self.progress.say(self.name + "audit of the timeline")
        given = scenario_text(part).rstrip("\n") + "\n---\n" + text
        if len(given) > LIMITS["audit_bytes"]:
            raise CcpError(
                "audit: the timeline has %d bytes, and one run has at most %d" % (len(given), LIMITS["audit_bytes"])
            )
        said = program.run("audit", given, program=self.program).output.strip()
        if said != "yes":
            raise CcpError("audit: the timeline isn't one of the scenario: %s, counted from case %d" % (said, first))


def size_of(part: Mapping[str, Any]) -> str:
    """How large a part is, in words."""
    acks = sum(case["acks"] for case in part["cases"])
    return "%s, %d acknowledgements" % (metrics.counted(len(part["cases"]), "case"), acks)


def renumbered(text: str, first: int) -> str:
    """A text whose flows are numbered from `first` on."""
    if not first:
        return text
    return re.sub(r"(?m)^flow ([0-9]+)", lambda found: "flow %d" % (int(found[1]) + first), text)


def kept(flows: Iterable[AckFrame], first: int, wanted: Iterable[int], into: Dict[int, AckFrame]) -> Iterator[AckFrame]:
    """The flows one after another; those that are wanted are kept."""
    for flow in flows:
        number = flow.number + first
        if number in wanted:
            into[number] = AckFrame(number, flow.case, flow.agent, flow.frame)
        yield flow


def table_text(rows: List[Dict[str, Any]]) -> str:
    """The text of a table with these rows, as one run of `campaign` prints it."""
    lines = [" ".join(COLUMNS), *(" ".join(str(row[name]) for name in COLUMNS) for row in rows)]
    total = ["cases=%d" % len(rows), *("%s=%d" % (name, sum(row[name] for row in rows)) for name in SUMS)]
    return "\n".join([*lines, "total " + " ".join(total)]) + "\n"


def shown_cases(scenario: Mapping[str, Any]) -> Dict[str, List[int]]:
    """The numbers of the cases that are plotted over time, by trace: those with the first queue, delay, loss, seed and
    mark."""
    found: Dict[str, Any] = {}
    for number, case in enumerate(scenario["cases"]):
        rest = [case.get(name) for name in ("queue", "delay_us", "loss", "seed", "mark")]
        first, numbers = found.setdefault(case["trace"], (rest, []))
        if rest == first:
            numbers.append(number)
    return {trace: numbers for trace, (_, numbers) in found.items()}


def joined(timelines: List[Timeline]) -> Timeline:
    """The timelines of parts as one."""
    if len(timelines) == 1:
        return timelines[0]
    names = ("reports", "faults", "epochs", "ends")
    return Timeline(*(pd.concat([getattr(one, name) for one in timelines], ignore_index=True) for name in names))
