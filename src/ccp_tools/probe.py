"""Programs that measure themselves: exact counts and mean delays of a case, 16 times as fast as from `acks`.

    from ccp_tools import probe

    for one in probe.mean_figures(scenario):
        print(one.case, one.throughput_mbps, one.queueing_mean_ms)

    measuring(text, after_us, until_us)     a program with fields that count, and a block that counts and falls through
    counts_of(timeline)                     what such programs counted, as `timeline` prints it
    mean_figures(scenario, window)          the figures of each case that means are enough for

The block comes first, so what the program does is unchanged; a count of the acknowledgements checks that nothing was
missed. Where something was, or a program has no room for the fields, `acks` is read in place of it. Missed are the
acknowledgements between a program's last report and its change, which a `lag` leaves, and those after a fault."""
from __future__ import annotations

import json
import re
from dataclasses import dataclass
from functools import lru_cache
from pathlib import Path
from typing import Any, Dict, Iterable, List, Mapping, NamedTuple, Sequence, Tuple

from . import program as programs
from .errors import Failed
from .parts import Part, Splitter, has_many_programs, in_whole
from .reference.flow import TEXTS as BUILT_IN_FOLDER
from .spans import Link, Window, bounds_of, of_counts
from .tables import AGENTS, BUILT_INS, LIMITS, MODES

# the fields, in the order of Counts: each is 0 until the program counts
FIELDS = ("acks", "end", "packets", "timeouts", "lost", "trips", "longest")
# the built-in programs of each agent in slow start and in congestion avoidance
BUILT_IN = {agent: (BUILT_INS[0], BUILT_INS[number]) for agent, number in AGENTS.items()}

ALWAYS = """(when true
  (:= Report.{0}acks (+ Report.{0}acks 1))
  (:= Report.{0}end Ack.now)
  (fallthrough))
"""
COUNTING = """(when {1}
  (:= Report.{0}packets (+ Report.{0}packets Ack.packets_acked))
  (:= Report.{0}timeouts (+ Report.{0}timeouts Flow.was_timeout))
  (:= Report.{0}lost (+ Report.{0}lost Ack.lost_pkts_sample))
  (:= Report.{0}trips (+ Report.{0}trips (* Ack.packets_acked Flow.rtt_sample_us)))
  (:= Report.{0}longest (max Report.{0}longest (* Ack.packets_acked Flow.rtt_sample_us)))
  (fallthrough))
"""
VALUES = re.compile(r" rate=[0-9]+" + r" [\w.]+=([0-9]+)" * len(FIELDS))
END = re.compile(r"acks=([0-9]+) reports=([0-9]+) held=([0-9]+) faults=([0-9]+) ")


# ---- programs


def measuring(text: str, after_us: int = 0, until_us: int | None = None) -> str:
    """A program that also counts the acknowledgements after a time (from the beginning where it is 0), up to another
    (to the end where it is None), both in microseconds. Its fields come before those of the program, under names that
    the program doesn't use, and its comments are gone. The text of a program that `ccp` refuses is refused too."""
    text = re.sub(r"#[^\n]*", "", text)
    prefix = next(name for name in ("m%d_" % number for number in range(len(text) + 1)) if name not in text)
    bounds = ["(> Ack.now %d)" % after_us] if after_us else []
    bounds += [] if until_us is None else ["(< Ack.now %d)" % (until_us + 1)]
    condition = "(&& %s %s)" % tuple(bounds) if len(bounds) > 1 else (bounds or ["true"])[0]
    fields = " ".join("(%s%s 0)" % (prefix, name) for name in FIELDS)
    end = end_of_form(text)
    form = text[:end]
    if re.search(r"\(\s*Report(?=[\s()])", form):
        form = re.sub(r"\(\s*Report(?=[\s()])", "(Report " + fields, form, count=1)
    else:
        form = re.sub(r"\(\s*def(?=[\s()])", "(def (Report %s)" % fields, form, count=1)
    return form + "\n" + ALWAYS.format(prefix) + COUNTING.format(prefix, condition) + text[end:]


def end_of_form(text: str) -> int:
    """Where the first form of a text without comments ends."""
    depth = 0
    for found in re.finditer(r"[()]", text):
        depth += 1 if found[0] == "(" else -1
        if depth <= 0:
            return found.end()
    return len(text)


@lru_cache(maxsize=512)
def is_accepted(text: str, path: Path) -> bool:
    """Whether `ccp` accepts a program. With 64 fields or near 256 instructions it may not accept what is added."""
    return programs.run("check", text, program=path, check=False).status == 0


def with_zeros(text: str) -> str:
    """A text without comments whose first form declares 0 in place of other numbers. `ccp` accepts both or neither, so
    programs that differ in such numbers alone take one run of `check`."""
    end = end_of_form(text)
    return re.sub(r"(?<=\s)[0-9]+(?=\s*\))", "0", text[:end]) + text[end:]


@lru_cache(maxsize=8)
def built_in(name: str) -> str:
    """The text of a built-in program, as reno_ss."""
    return (BUILT_IN_FOLDER / (name + ".portus")).read_text(encoding="utf-8")


# ---- counts


class Counts(NamedTuple):
    """What a program counted: `acks`, and the virtual time `end_us` of the last one; and within its window of time the
    packets acknowledged and lost, the timeouts, and the sum and the greatest of the round trips in microseconds. From
    the line `end` the reports, those held back, the faults and the programs that ran, of the whole case."""

    acks: int
    end_us: int
    packets: int
    timeouts: int
    lost: int
    trips_us: int
    longest_us: int
    reports: int
    held: int
    faults: int
    epochs: int


def counts_of(timeline: str) -> List[Counts | None]:
    """The counts of each flow of a timeline whose programs measure themselves; None where they missed an
    acknowledgement."""
    return [counts_in(part) for part in ("\n" + timeline).split("\nflow ")[1:]]


def counts_in(flow: str) -> Counts | None:
    """The counts of a flow. A change of the program begins them anew, so those of the last report of each epoch but the
    last are added to those of the line `end`."""
    reports, _, end = flow.rpartition("\nend ")
    epochs = reports.count("\nepoch ")
    ends = [VALUES.search(end)]
    for epoch in range(epochs - 1):
        at = reports.rfind(" epoch=%d span=" % epoch)
        if at >= 0:
            ends.append(VALUES.search(reports, at))
    found = END.match(end)
    rows = [[int(value) for value in one.groups()] for one in ends if one]
    if not found or not rows:
        return None
    acks, made, held, faults = (int(value) for value in found.groups())
    count, end_us, packets, timeouts, lost, trips, longest = zip(*rows)
    if sum(count) != acks:
        return None
    sums = (sum(packets), sum(timeouts), sum(lost), sum(trips))
    return Counts(acks, max(end_us), *sums, max(longest), made, held, faults, epochs)


# ---- figures


@dataclass(frozen=True)
class MeanFigures:
    """The figures of a case that means are enough for, by the names, units and definitions of `ccp metrics`, and
    `rtt_max_ms`, the greatest round trip. What isn't there is None, as a delay where nothing was acknowledged."""

    case: str
    end_s: float
    reports: int
    held: int
    faults: int
    epochs: int
    packets: int | None = None
    lost: int | None = None
    timeouts: int | None = None
    span_s: float | None = None
    throughput_mbps: float | None = None
    utilization: float | None = None
    loss_rate: float | None = None
    rtt_mean_ms: float | None = None
    rtt_max_ms: float | None = None
    queueing_mean_ms: float | None = None
    power: float | None = None


def figures_of_counts(case: Mapping[str, Any], counts: Counts, link: Link, window: Window) -> MeanFigures:
    """The figures of what a case's programs counted in a window of time."""
    whole = (case["name"], counts.end_us / 1e6, counts.reports, counts.held, counts.faults, counts.epochs)
    after_us, upto_us, span_us = bounds_of(case, counts.end_us, window)
    if upto_us <= after_us and after_us:
        return MeanFigures(*whole)
    chances, acked = link.chances(case["trace"], upto_us, after_us), counts.packets * case["mss"]
    made = of_counts(span_us, chances, counts.packets, counts.lost, counts.timeouts, acked)
    made.update(delays_of_counts(counts, int(case["delay_us"])))
    if made.get("rtt_mean_ms"):
        made["power"] = (made["throughput_mbps"] or 0) / made["rtt_mean_ms"]
    return MeanFigures(*whole, **made)


def delays_of_counts(counts: Counts, delay_us: int) -> Dict[str, float]:
    """The figures of the round trips of acknowledged packets, as metrics.delays_of has them."""
    if not counts.packets:
        return {}
    return {
        "rtt_mean_ms": counts.trips_us / counts.packets / 1e3,
        "rtt_max_ms": counts.longest_us / 1e3,
        "queueing_mean_ms": (counts.trips_us - delay_us * counts.packets) / counts.packets / 1e3,
    }


def mean_figures(
    scenario: Mapping[str, Any],
    window: Window | Mapping[str, Window] = Window(),
    *,
    program: str | Path | None = None,
    workers: int | None = None,
    link: Link | None = None,
) -> List[MeanFigures]:
    """The figures of each case of a scenario of any number of cases, in their order, over a window of time; or over
    that of its trace, where `window` maps traces to windows. They equal those of ccp_tools.figures. `program` is the
    path of `ccp`, `workers` the threads of a run (all processors), and `link` what has the chances, where they are
    known without reading the traces. Errors: CcpError."""
    path, link, cases = programs.find_program(program), link or Link(scenario), scenario["cases"]
    windows = [window if isinstance(window, Window) else window[case["trace"]] for case in cases]
    threads = workers or programs.processors()
    found: Dict[int, MeanFigures] = {}
    for group in groups_of(scenario, windows, path):
        for at, counts in group.counts(path, threads):
            if counts:
                found[at] = figures_of_counts(cases[at], counts, link, windows[at])
    left = [at for at in range(len(cases)) if at not in found]
    found.update(zip(left, figures_by_acks(scenario, left, windows, link, path, threads)))
    return [found[at] for at in range(len(cases))]


class Group:
    """Cases whose programs fit into one scenario, with the numbers that they have in theirs."""

    def __init__(self, scenario: Mapping[str, Any]) -> None:
        self.scenario = scenario
        self.names: Dict[str, str] = {}
        self.numbers: List[int] = []
        self.cases: List[Dict[str, Any]] = []

    def takes(self, texts: Iterable[str]) -> bool:
        """Whether there is room for programs."""
        return len({*self.names, *texts}) <= LIMITS["named_programs"]

    def add(self, number: int, case: Mapping[str, Any], slow: str, avoid: str) -> None:
        """Adds a case with its two measuring programs."""
        names = [self.names.setdefault(text, "p%d" % len(self.names)) for text in (slow, avoid)]
        self.numbers.append(number)
        self.cases.append({**case, "ss": names[0], "ca": names[1]})

    def counts(self, path: Path, workers: int) -> Iterable[Tuple[int, Counts | None]]:
        """The number of each case with what its programs counted."""
        texts = {name: text for text, name in self.names.items()}
        used = {case["trace"] for case in self.cases}
        traces = {name: text for name, text in self.scenario["traces"].items() if name in used}
        whole = {"version": 1, "programs": texts, "traces": traces, "cases": self.cases}
        for part, output in runs_of(whole, "timeline", self.numbers, path, workers):
            yield from zip(self.numbers[part.first : part.end], counts_of(output))


def groups_of(scenario: Mapping[str, Any], windows: Sequence[Window], path: Path) -> List[Group]:
    """The cases whose programs can measure themselves, in groups of as many programs as a scenario has."""
    groups: List[Group] = []
    for at, (case, window) in enumerate(zip(scenario["cases"], windows)):
        texts = measuring_programs(scenario, case, window, path)
        if texts is None:
            continue
        group = next((one for one in groups if one.takes(texts)), None)
        if group is None:
            group = Group(scenario)
            groups.append(group)
        group.add(at, case, *texts)
    return groups


def measuring_programs(
    scenario: Mapping[str, Any], case: Mapping[str, Any], window: Window, path: Path
) -> Tuple[str, str] | None:
    """The programs of a case in slow start and in congestion avoidance, which measure themselves; None where one of
    them can't, or `ccp` refuses the case's agent or programs anyway."""
    own, agent = scenario.get("programs", {}), case.get("agent")
    if agent not in BUILT_IN:
        return None
    found = []
    for role, name in zip(("ss", "ca"), BUILT_IN[agent]):
        text = own.get(case[role]) if role in case else built_in(name)
        text = text if text is None else measured(text, window)
        if text is None or not is_accepted(with_zeros(text), path):
            return None
        found.append(text)
    return found[0], found[1]


@lru_cache(maxsize=512)
def measured(text: str, window: Window) -> str:
    """A program that measures itself over a window of time."""
    return measuring(text, window.begin_us, window.until_us)


def parts_of(whole: Dict[str, Any], mode: str) -> Iterable[Part]:
    """The parts of a scenario that a run takes; mostly it is one."""
    cases, text = len(whole["cases"]), json.dumps(whole)
    acks = sum(case["acks"] for case in whole["cases"]) if mode != "campaign" else 0
    is_short = cases <= (MODES[mode].cases or 0) and len(text) <= LIMITS["input_bytes"]
    if is_short and acks <= LIMITS["acks_in_all"] and not has_many_programs(whole):
        yield Part(0, cases, text)
        return
    splitter = Splitter(whole, mode, cases)
    for first, end in splitter.spans():
        yield splitter.part(first, end)


def runs_of(
    whole: Dict[str, Any], mode: str, numbers: Sequence[int], path: Path, workers: int
) -> Iterable[Tuple[Part, str]]:
    """What a mode prints of a scenario of any number of cases, part by part. A refusal names the case by its number in
    `numbers`."""
    for part in parts_of(whole, mode):
        first, end = part.first, part.end
        try:
            yield part, programs.run(mode, part.text, program=path, workers=workers).output
        except Failed as error:
            is_one_run = list(numbers[first:end]) == list(range(numbers[first], numbers[first] + end - first))
            raise Failed(error.status, in_whole(error.line, numbers[first] if is_one_run else first)) from None


def figures_by_acks(
    scenario: Mapping[str, Any],
    numbers: Sequence[int],
    windows: Sequence[Window],
    link: Link,
    path: Path,
    workers: int,
) -> List[MeanFigures]:
    """The figures of the cases with these numbers, from their table and their acknowledgements."""
    if not numbers:
        return []
    from .frames import acks_in
    from .texts import read_table

    cases = [scenario["cases"][at] for at in numbers]
    used = {case["trace"] for case in cases}
    traces = {name: text for name, text in scenario["traces"].items() if name in used}
    whole = {**scenario, "traces": traces, "cases": cases}
    rows = (row for _, text in runs_of(whole, "campaign", numbers, path, workers) for row in read_table(text).rows)
    flows = (flow.frame for _, text in runs_of(whole, "acks", numbers, path, workers) for flow in acks_in(text))
    ran = zip(cases, rows, flows, numbers)
    return [figures_of_frame(case, row, frame, link, windows[at]) for case, row, frame, at in ran]


def figures_of_frame(
    case: Mapping[str, Any], row: Mapping[str, Any], frame: Any, link: Link, window: Window
) -> MeanFigures:
    """The figures of a case's row of the table and of its acknowledgements, as a frame."""
    from .metrics import figures_of_acks, inside_of

    made = {name: row[name] for name in ("reports", "held", "faults", "epochs")}
    made.update(figures_of_acks(case, frame, link, window))
    after_us, upto_us, _ = bounds_of(case, row["now"], window)
    inside = inside_of(frame, after_us, upto_us)
    trips = inside["rtt_sample_us"][inside["packets_acked"] > 0]
    made["rtt_max_ms"] = float(trips.max()) / 1e3 if len(trips) else None
    names = set(MeanFigures.__dataclass_fields__)
    return MeanFigures(case=case["name"], **{name: value for name, value in made.items() if name in names})
