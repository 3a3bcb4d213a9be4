"""The plots, the printed table and the report of a comparison."""

from __future__ import annotations

import argparse
import base64
import gc
import hashlib
import multiprocessing
import platform
import signal
import subprocess
from dataclasses import dataclass, field
from functools import cached_property, partial
from pathlib import Path
from typing import Any, Callable, Dict, List, Mapping, Sequence, Tuple

import matplotlib
import numpy as np
import pandas as pd
from matplotlib.figure import Figure

from .. import cautions, metrics, plots, program
from ..cautions import Caution
from ..interrupts import deferred_interrupts, without_interrupts
from ..metrics import SHOWN, Window, counted
from ..plots import Look
from ..scenario_files import Scenario
from ..senders import resolved
from ..traces import gap_warning, gaps_of
from . import shared
from .cases import Comparison
from .outside import file_sha256, programs_of
from .runs import Results, joined, shown_cases

# the columns of the report's table, and those of the printed one with their short names
TABLE = (
    "throughput_mbps utilization loss_rate queueing_mean_ms queueing_p50_ms queueing_p95_ms queueing_p99_ms "
    "power span_s"
).split()
SHORT = {
    "throughput_mbps": "Mbit/s",
    "utilization": "used%",
    "loss_rate": "lost%",
    "queueing_mean_ms": "wait",
    "queueing_p95_ms": "p95",
    "queueing_p99_ms": "p99",
    "power": "power",
    "span_s": "span",
}
COUNTED = "packets lost timeouts reports held faults epochs".split()
# figures that are comparable between traces
OVERALL = ("utilization", "loss_rate", "queueing_p95_ms")
VARYING = ("queue", "delay_ms", "loss", "mark")


def varying_of(frame: pd.DataFrame) -> List[str]:
    """The columns of the grid in which the cases of one trace differ."""
    found = []
    for name in VARYING:
        counts = frame.assign(value=frame[name].astype(str)).groupby("trace", sort=False)["value"].nunique()
        if (counts > 1).any():
            found.append(name)
    return found


# ---- plots


@dataclass(frozen=True)
class Plot:
    """A plot of the report: the name of its files without ending, its heading, what it shows, its SVG files, and the
    names of its files of other forms."""

    name: str
    head: str
    what: str
    files: Tuple[Path, ...]
    others: Tuple[str, ...] = ()


# a plot that is still to be drawn: its name, heading, what it shows, and what makes its pages
Job = Tuple[str, str, str, Callable[[], List[Figure]]]


def drawn_all(jobs: Sequence[Job], folder: Path, look: Look, forms: Sequence[str]) -> List[Plot]:
    """Draws plots, as SVG and in each of the forms, one process each as far as there are processors. matplotlib uses
    one of them alone."""
    for form in (".svg", *forms):
        plots.load_writer(form)

    def work(at: int) -> Tuple[List[Path], List[str]]:
        name, _, _, make = jobs[at]
        pages = plots.drawn(look, make)
        if not pages:
            return [], []
        others = [path for form in forms if form != ".svg" for path in plots.save(pages, folder / (name + form), look)]
        return plots.save(pages, folder / (name + ".svg"), look), [path.name for path in others]

    # those that take longest begin first: the points of all packets, and bars with their numbers
    order = sorted(range(len(jobs)), key=lambda at: jobs[at][0] not in ("delay", "bars"))
    drawn = dict(zip(order, in_processes(lambda at: work(order[at]), len(jobs))))
    files = [drawn[at] for at in range(len(jobs))]
    return [
        Plot(name, head, what, tuple(some), tuple(others))
        for (name, head, what, _), (some, others) in zip(jobs, files)
        if some
    ]


def in_processes(work: Callable[[int], Any], count: int) -> List[Any]:
    """What work gives for 0 to count - 1, in forked processes where the system has them."""
    processors = min(program.processors(), count)
    if processors < 2 or "fork" not in multiprocessing.get_all_start_methods():
        return [work(at) for at in range(count)]
    FORKED["work"] = work
    # the processes end soon, and looking for garbage would copy the memory that they share
    gc.freeze()
    pool = None
    try:
        # an interrupt is for this process alone, which then ends them; one that comes meanwhile is raised below
        with without_interrupts():
            pool = multiprocessing.get_context("fork").Pool(processors, initializer=begin_forked)
        return pool.map(forked, range(count), chunksize=1)
    finally:
        if pool is not None:
            with deferred_interrupts():
                pool.terminate()


def begin_forked() -> None:
    """Has SIGTERM end a forked process silently, as the pool ends it."""
    gc.disable()
    signal.signal(signal.SIGTERM, signal.SIG_DFL)
    signal.pthread_sigmask(signal.SIG_UNBLOCK, [signal.SIGTERM])


# what a forked process runs; a function within another one can't be sent to it
FORKED: Dict[str, Callable[[int], Any]] = {}


def forked(at: int) -> Any:
    """What the work of FORKED gives for a number."""
    return FORKED["work"](at)


def draw(
    scenario: Scenario,
    results: Results,
    folder: Path,
    look: Look,
    windows: Mapping[str, Window],
    sharings: Sequence[shared.Sharing] = (),
    forms: Sequence[str] = (".svg",),
) -> List[Plot]:
    """Draws the plots of a comparison, each as SVG and in the other forms."""
    look = Look(look.size, "", look.font, look.font_points)
    until = {name: window.until_us and window.until_us / 1e6 for name, window in windows.items()}
    jobs = [
        *jobs_of_figures(results.figures, look),
        *jobs_of_flows(scenario, results, look, until),
        *shared.jobs_of(sharings, scenario, look),
    ]
    return drawn_all(jobs, folder, look, forms)


def jobs_of_figures(frame: pd.DataFrame, look: Look) -> List[Job]:
    """The plots of the figures: bars, scatter, and of several traces all of them together."""
    points = plots.points_of(frame)
    over = ", means over the seeds with 95 % intervals" if frame["seed"].nunique() > 1 else ""
    sigma = " An ellipse is one standard deviation over the seeds." if over else ""
    bars = ["throughput_mbps", "loss_rate", "queueing_p95_ms"]
    what = "Throughput with the link's capacity in grey, lost packets, and the 95th percentile of the queueing delay%s."
    made: List[Job] = [("bars", "Throughput, loss and delay", what % over, lambda: plots.bars(points, bars, look))]
    what = "Up and right is better: the delay axis is reversed%s.%s Two strokes mark an axis that doesn't begin at 0."
    made.append(("scatter", "Throughput over delay", what % (over, sigma), lambda: plots.scatter(points, look=look)))
    if frame["trace"].nunique() > 1:
        what = (
            "The mean of each sender over all traces: the share of the capacity that it used, and its delay. An "
            "ellipse is one standard deviation over the traces."
        )
        made.append(("overall", "All traces together", what, lambda: plots.overall(frame, look)))
    return made


def jobs_of_flows(scenario: Scenario, results: Results, look: Look, until: Mapping[str, float | None]) -> List[Job]:
    """The plots of the flows that are shown: round-trip times, and what happened over time on each trace. `until`
    has the end of each trace's span in seconds, or None."""
    shown = {
        trace: {number: results.acks[number] for number in numbers if number in results.acks}
        for trace, numbers in shown_cases(scenario).items()
    }
    named = plots.named_flows([flow for acks in shown.values() for flow in acks.values()], scenario)
    what = (
        "Each packet's round-trip time when it was acknowledged, and beside it the share of packets up to each time. "
        "The axis is logarithmic where a few packets waited far longer than the rest."
    )
    end = max((value or 0 for value in until.values()), default=0) or None
    made: List[Job] = [("delay", "Round-trip times", what, lambda: plots.delay(named, look, end))]
    timeline = joined(results.timelines)
    for trace, numbers in shown_cases(scenario).items():
        work = partial(plots.flows, timeline, numbers, scenario, shown[trace], look, until[trace])
        made.append(("flows-" + trace, "Over time: " + trace, OVER_TIME, work))
    return made


OVER_TIME = (
    "Throughput with the link's capacity in grey, window, round-trip time, and what happened when: losses, marks, "
    "timeouts, and changes of program by the agent."
)


# ---- the table


@dataclass(frozen=True)
class Row:
    """A row of the table: what it is of, its figures with half of their intervals, and why its figures are doubtful.
    `cases` are the names of its cases, and `by_seed` has the figures of each seed where the row is a mean over them."""

    by: Dict[str, Any]
    values: Dict[str, Tuple[float | None, float | None]]
    doubts: str
    cases: Tuple[str, ...] = ()
    by_seed: Dict[Any, Dict[str, float | None]] = field(default_factory=dict)

    @property
    def settings(self) -> Dict[str, Any]:
        """What it is of, but for the sender."""
        return {name: value for name, value in self.by.items() if name != "sender"}


def rows_of(frame: pd.DataFrame, by: Sequence[str], groups: pd.DataFrame | None) -> List[Row]:
    """The rows of the table: one a case, or over seeds one a group."""
    cases = metrics.rows_of(frame)
    if groups is None:
        return [
            Row(named(row, by), {name: (row[name], None) for name in TABLE}, row["doubts"] or "", (row["case"],))
            for row in cases
        ]
    of_groups: Dict[Tuple[str, ...], List[Dict[str, Any]]] = {}
    for row in cases:
        of_groups.setdefault(place_in(row, by), []).append(row)
    made = []
    for row in metrics.rows_of(groups):
        some = of_groups[place_in(row, by)]
        values = {name: (row[name + "_mean"], row[name + "_ci95"]) for name in TABLE}
        doubts = "; ".join(dict.fromkeys(one["doubts"] for one in some if one["doubts"]))
        by_seed = {one["seed"]: {name: one[name] for name in TABLE} for one in some}
        made.append(Row(named(row, by), values, doubts, tuple(one["case"] for one in some), by_seed))
    return made


def place_in(row: Mapping[str, Any], by: Sequence[str]) -> Tuple[str, ...]:
    """The values of a row in the columns `by`, as texts."""
    return tuple(str(row[name]) for name in by)


def named(row: Mapping[str, Any], by: Sequence[str]) -> Dict[str, Any]:
    """The columns `by` of a row, with none for what has no value."""
    return {name: "none" if row.get(name) is None else row[name] for name in by}


def text_of(name: str, value: Tuple[float | None, float | None]) -> str:
    """A figure as it is shown, with half of its interval."""
    mean, half = value
    if mean is None:
        return "none"
    return SHOWN[name].text(mean, half)


def summary(rows: Sequence[Row], by: Sequence[str]) -> str:
    """The table as columns of text. A doubtful row has `!` after its sender, and its reason below."""
    lines = [[*by, *SHORT.values()]]
    for row in rows:
        names = [str(row.by[name]) + (" !" if name == "sender" and row.doubts else "") for name in by]
        lines.append([*names, *(text_of(name, row.values[name]) for name in SHORT)])
    widths = [max(len(line[at]) for line in lines) for at in range(len(lines[0]))]
    made = []
    for line in lines:
        cells = [
            text.ljust(width) if at < len(by) else text.rjust(width)
            for at, (text, width) in enumerate(zip(line, widths))
        ]
        made.append(" ".join(cells).rstrip())
    made += ["! %s: %s" % (place_of(row), row.doubts) for row in rows if row.doubts]
    return "\n".join(made) + "\n"


def place_of(row: Row) -> str:
    """What a row is of, in words: `bbr on lte, queue 20`."""
    rest = [plots.said_of(name, value) for name, value in row.by.items() if name not in ("trace", "sender")]
    return ", ".join(["%s on %s" % (row.by["sender"], row.by["trace"]), *rest])


def best_of(rows: Sequence[Row], row: Row, name: str, found: Sequence[Caution] = ()) -> bool:
    """Whether a figure is the best of its trace and settings, as it is shown. None is where a caution is about this
    figure of one of them, one of a doubtful row never is, and over seeds one is that is apart from each other."""
    if row.doubts or name == "span_s":
        return False
    peers = [one for one in rows if one.settings == row.settings]
    if any(one.covers(peer.cases, name) for one in found for peer in peers):
        return False
    group = [one for one in peers if not one.doubts]
    if any(len(one.by_seed) > 1 for one in group):
        others = [one for one in group if one is not row and one.values[name][0] is not None]
        return bool(others) and all(is_better(row, one, name) and are_apart(row, one, name) for one in others)
    return is_first(group, row, name)


def is_first(group: Sequence[Row], row: Row, name: str) -> bool:
    """Whether a figure is the best of a group as it is shown, where not all are equal."""
    shown = SHOWN[name]

    def rounded(one: Row) -> float | None:
        mean = one.values[name][0]
        return None if mean is None else float(shown.text(mean))

    known = [value for value in map(rounded, group) if value is not None]
    mine = rounded(row)
    return mine is not None and min(known) < max(known) and mine == (max(known) if shown.is_more else min(known))


def is_better(row: Row, other: Row, name: str) -> bool:
    """Whether the mean of a row is better than that of another."""
    mine, its = row.values[name][0], other.values[name][0]
    return mine is not None and its is not None and (mine > its if SHOWN[name].is_more else mine < its)


def are_apart(row: Row, other: Row, name: str) -> bool:
    """Whether two means over seeds differ: their 95 % intervals don't meet, or the differences of equal seeds, which
    lose equal packets, aren't 0 by Student's t for pairs at 5 %."""
    (mean, half), (its_mean, its_half) = row.values[name], other.values[name]
    if mean is None or its_mean is None:
        return False
    if half is not None and its_half is not None and abs(mean - its_mean) > half + its_half:
        return True
    pairs = [(row.by_seed[seed][name], other.by_seed[seed][name]) for seed in row.by_seed if seed in other.by_seed]
    differences = np.array([a - b for a, b in pairs if a is not None and b is not None])
    if len(differences) < 2:
        return False
    error = differences.std(ddof=1) / len(differences) ** 0.5
    return bool(abs(differences.mean()) > metrics.quantile_of_t(np.array([len(differences) - 1]))[0] * error)


def overall_rows(frame: pd.DataFrame) -> List[Dict[str, Any]]:
    """The means of each sender over all traces, of the figures that are comparable between traces."""
    made = []
    for sender, cases in frame.groupby("sender", sort=False):
        means = cases.groupby("trace", sort=False)[list(OVERALL)].mean().mean()
        values = {name: (None if means[name] != means[name] else float(means[name]), None) for name in OVERALL}
        doubtful = bool((cases["doubts"] != "").any())
        made.append(
            {"sender": sender, "doubtful": doubtful, "cells": [text_of(name, values[name]) for name in OVERALL]}
        )
    return made


# ---- the page


@dataclass(frozen=True)
class Real:
    """Rows of real senders, which come after those of the comparison, and what the report says of each."""

    rows: Sequence[Row] = ()
    notes: Sequence[str] = ()


@dataclass
class Page:
    """What the report shows."""

    arguments: argparse.Namespace
    grid: Comparison
    scenario: Scenario
    frame: pd.DataFrame
    by: List[str]
    groups: pd.DataFrame | None
    results: Results
    plots: List[Plot]
    windows: Mapping[str, Window]
    path: Path
    sharings: Sequence[shared.Sharing] = ()
    remarks: Sequence[str] = ()
    real: Real = Real()

    @property
    def rows(self) -> List[Row]:
        """The rows of the table: the simulated senders, then the real ones."""
        return [*rows_of(self.frame, self.by, self.groups), *self.real.rows]

    @cached_property
    def cautions(self) -> List[Caution]:
        """Which figures can't be trusted as they stand."""
        rows = metrics.rows_of(self.frame)
        return cautions.found(self.scenario, rows, self.windows, self.grid.recorded, bool(self.sharings))

    def summary(self) -> str:
        """The table as text, with what it has to be read with."""
        parts = self.parts_measured() if self.grid.shortened else []
        lines = [*parts, *("caution: " + one.line() for one in self.cautions)]
        return summary(self.rows, self.by) + "".join("%s\n" % text for text in lines)

    def html(self, options: str) -> str:
        """The report, one file that needs no other."""
        from jinja2 import Environment, FileSystemLoader, StrictUndefined

        folder = Path(__file__).parent
        environment = Environment(
            loader=FileSystemLoader(folder), autoescape=True, undefined=StrictUndefined, trim_blocks=True
        )
        rows = self.rows
        cases, traces = len(self.frame), self.frame["trace"].nunique()
        senders = counted(self.frame["sender"].nunique(), "sender")
        return environment.get_template("report.html").render(
            title=self.arguments.title or "Senders over recorded links",
            what="%s over %s, %s. Each case is one flow over its own virtual link."
            % (senders, counted(traces, "trace"), counted(cases, "case")),
            identity=program.identity(self.path),
            warnings=self.warnings(rows),
            cautions=self.cautions,
            conditions=self.conditions(),
            heads=[*self.by, *(SHOWN[name].label for name in TABLE)],
            rows=[self.cells(rows, row) for row in rows],
            has_doubts=any(row.doubts for row in rows),
            real=self.real.notes,
            is_seeded=self.groups is not None,
            is_part=sum(map(len, shown_cases(self.scenario).values())) < cases,
            overall=overall_rows(self.frame) if traces > 1 else [],
            overall_heads=[SHOWN[name].label for name in OVERALL],
            shared=shared.table_of(self.sharings),
            shared_heads=shared.HEADS,
            shared_rounds=", ".join("%s %g ms" % (one.trace, one.quantum_us / 1000) for one in self.sharings),
            fair=shared.FAIR,
            counts=metrics.rows_of(self.frame[["case", *COUNTED, "doubts"]]),
            count_heads=COUNTED,
            plots=[{"plot": one, "images": [image_of(path) for path in one.files]} for one in self.plots],
            traces=self.traces(),
            senders=self.senders(),
            has_outside=bool(self.results.recordings),
            parts=self.results.parts,
            options=options,
            versions=versions(self.path),
        )

    def warnings(self, rows: Sequence[Row]) -> List[str]:
        """What a reader has to know before the figures."""
        found = [*self.parts_measured(), *("%s: %s" % (place_of(row), row.doubts) for row in rows if row.doubts)]
        found += [*self.remarks, *(text for one in self.sharings for text in one.doubts)]
        alone = [one.label for one in self.arguments.senders if one.file]
        if self.arguments.shared and alone:
            found.append(
                "Agents outside drive a link alone, and aren't among those that share one: " + ", ".join(alone)
            )
        if metrics.spans_differ(self.frame):
            found.append("Senders are measured over different spans, so their figures aren't comparable as they stand.")
        return found

    def parts_measured(self) -> List[str]:
        """How much of each recording was measured that wasn't to its end, with the reason where a limit is one."""
        found = []
        for name, times in self.grid.recorded.items():
            window, length = self.windows[name], times[-1] / 1e3
            if window.until_us is not None and window.until_us / 1e6 < length:
                span = (window.until_us - window.begin_us) / 1e6
                values = (name, *rounded_parts(span, length))
                reason = self.grid.shortened.get(name)
                found.append(
                    "%s: %s of %s s of the recording were measured%s" % (*values, ": " + reason if reason else "")
                )
        return found

    def conditions(self) -> List[Tuple[str, str]]:
        """The conditions of the comparison, each with its values."""
        shown = [
            ("delay from chance to acknowledgement [ms]", "delay_ms"),
            ("losses beside those of the queue", "loss"),
            ("seeds", "seed"),
            ("marks from [waiting packets]", "mark"),
            ("timeout [ms]", "timeout_ms"),
            ("answer's lag [acknowledgements]", "lag"),
        ]
        made = [("queue [packets]", self.queues()), *((head, values_of(self.frame[name])) for head, name in shown)]
        many = self.arguments.aggregate or 1
        size = values_of(self.frame["mss"] // many)
        made.append(("segment [bytes]", size if many == 1 else "%s, %d in a packet" % (size, many)))
        spans = []
        for name, window in self.windows.items():
            measured = self.frame[self.frame["trace"] == name]["span_s"]
            begin = "%g to " % (window.begin_us / 1e6) if window.begin_us else ""
            whole = window.until_us / 1e6 if window.until_us is not None else None
            length = "%g" % whole if whole is not None else "%.3g to %.3g" % (measured.min(), measured.max())
            spans.append("%s: %s%s" % (name, begin, length))
        gaps = [("gaps", text) for text in gap_warnings(self.grid.recorded)]
        return [("measured [s of virtual time]", ", ".join(spans)), *made, *self.links(), *gaps]

    def links(self) -> List[Tuple[str, str]]:
        """The conditions of each link that has some of its own."""
        words = self.arguments.link
        names = list(self.grid.own)[len(self.grid.own) - len(words) :]
        return [("link", "%s: %s" % (name, one.text)) for name, one in zip(names, words)]

    def queues(self) -> str:
        """The queues in packets, after how they were asked for where that was in other units."""
        asked = [queue.label for queue in self.arguments.queue_ms or self.arguments.queue or [] if not queue.packets]
        return ": ".join([*([", ".join(asked)] if asked else []), values_of(self.frame["queue"])])

    def cells(self, rows: Sequence[Row], row: Row) -> Dict[str, Any]:
        """A row as the template shows it: each figure as text and number, and whether it is the best of its rows."""
        cells = [
            {
                "text": text_of(name, row.values[name]),
                "value": row.values[name][0],
                "best": best_of(rows, row, name, self.cautions),
            }
            for name in TABLE
        ]
        return {"names": list(row.by.items()), "cells": cells, "doubts": row.doubts}

    def traces(self) -> List[Dict[str, Any]]:
        """Each trace of the comparison, as it was recorded: its mean rate in Mbit/s with packets of 1,500 bytes, its
        length in seconds, its longest gap in milliseconds, and the SHA-256 of its text in the scenario."""
        return [
            {
                "name": name,
                "rate": 12 * len(times) / times[-1],
                "length": times[-1] / 1000,
                "gap": max(gaps_of(times)),
                "sha256": sha256(self.scenario["traces"][name]),
            }
            for name, times in self.grid.recorded.items()
        ]

    def senders(self) -> List[Dict[str, Any]]:
        """The senders, with the texts of their programs."""
        found, texts = resolved(self.arguments.senders, self.arguments.portus)
        made = []
        for one, word in zip(found, self.arguments.senders.words):
            own = programs_of(one.file) if one.file else {name: texts[name] for name in one.programs()}
            programs = [{"name": name, "text": text, "sha256": sha256(text)} for name, text in own.items()]
            files = [
                {"name": recording.path.name, "sha256": recording.sha256}
                for recording in self.results.recordings
                if one.file and recording.label == one.label
            ]
            file = {"name": one.file, "sha256": file_sha256(one.file)} if one.file else None
            how = how_of(one, self.frame)
            made.append(
                {"label": one.label, "how": how, "word": word, "programs": programs, "file": file, "recordings": files}
            )
        return made


def gap_warnings(recorded: Mapping[str, Sequence[int]]) -> List[str]:
    """What figures on recordings lack that have long gaps, by the times of each as it was recorded: with --aggregate
    the chances of a packet are further apart, which is no gap of the link."""
    return [text for text in (gap_warning(name, times) for name, times in recorded.items()) if text]


def rounded_parts(part: float, whole: float) -> Tuple[str, str]:
    """A part and a whole of seconds as a sentence has them, with a decimal at least, so that both aren't equal."""
    decimals = next((count for count in (1, 2) if round(part, count) < round(whole, count)), 3)
    return "%.*f" % (decimals, part), "%g" % round(whole, 3)


def how_of(one: Any, frame: pd.DataFrame) -> str:
    """How a sender runs, by what its cases did."""
    if one.file:
        return "an agent outside ccp, which drove its flows by frames"
    if not one.programs():
        return "the built-in agent with its built-in programs"
    where = (
        "in both phases"
        if one.slow == one.avoid
        else "in congestion avoidance"
        if not one.slow
        else "in each phase"
        if one.avoid
        else "in slow start"
    )
    epochs = frame[frame["sender"] == one.label]["epochs"].max()
    answered = "no agent changed it" if epochs == 1 else "the agent %s changed it" % one.agent
    return "a program of its own %s; %s" % (where, answered)


def values_of(column: pd.Series) -> str:
    """The different values of a column as text."""
    values = [metrics.plain(value) for value in column.drop_duplicates()]
    return ", ".join(
        "none" if value is None else "%g" % value if isinstance(value, (int, float)) else str(value) for value in values
    )


def sha256(text: str) -> str:
    """The SHA-256 of a text in UTF-8, as hexadecimal digits."""
    return hashlib.sha256(text.encode("utf-8", "surrogateescape")).hexdigest()


def image_of(path: Path) -> str:
    """A file as the address of an image."""
    return "data:image/svg+xml;base64," + base64.b64encode(path.read_bytes()).decode()


def revision() -> str:
    """The revision of the checkout, or unknown."""
    top = program.checkout()
    if top is None:
        return "unknown"
    try:
        # also in a checkout of another user, which git otherwise refuses
        words = ["git", "-c", "safe.directory=%s" % top, "-C", str(top), "rev-parse", "HEAD"]
        ran = subprocess.run(words, stdout=subprocess.PIPE, stderr=subprocess.DEVNULL, text=True)
    except OSError:
        return "unknown"
    return ran.stdout.strip() or "unknown"


def versions(path: Path) -> List[Tuple[str, str]]:
    """What made the report, as names and values: the program at a path, the sources, and the libraries."""
    known = program.identity(path)
    return [
        ("ccp, version", known.version),
        ("ccp, proved", "yes" if known.is_proved else "no"),
        ("ccp, SHA-256 of the program", known.sha256),
        ("ccp, revision of the sources", revision()),
        ("matplotlib, pandas", "%s, %s" % (matplotlib.__version__, pd.__version__)),
        ("Python", platform.python_version()),
    ]
