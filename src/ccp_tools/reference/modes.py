"""What the modes print of an input, as docs/formats.md has it, by the reference model."""
from __future__ import annotations

from typing import Callable, Dict, List, Mapping, Sequence, Union

from ..tables import COLUMNS, PRIMITIVES, SUMS
from .flow import Acknowledgement, Members, fields_text, flows_of
from .language import Fault, Meaning
from .shared_link import Bottleneck

Row = Dict[str, Union[int, str]]


def table_text(rows: Sequence[Row]) -> str:
    """The text of a table: the columns, its rows, and the total."""
    total = ["cases=%d" % len(rows)] + ["%s=%d" % (name, sum(int(row[name]) for row in rows)) for name in SUMS]
    lines = [COLUMNS, *([str(row[name]) for name in COLUMNS] for row in rows), ["total", *total]]
    return "".join(" ".join(line) + "\n" for line in lines)


def campaign(scenario: Members) -> str:
    """The text of `campaign`, without `--wire`."""
    rows = []
    for flow in flows_of(scenario):
        flow.run_campaign_word()
        rows.append(flow.row())
    return table_text(rows)


def timeline(scenario: Members) -> str:
    """The text of `timeline`, without `--wire`."""
    lines: List[str] = []
    for flow in flows_of(scenario):
        flow.run_campaign_word()
        lines += flow.lines()
    return "".join(line + "\n" for line in lines)


def acks(scenario: Members) -> str:
    """The text of `acks`."""
    lines: List[str] = []
    for flow in flows_of(scenario, lambda ack: lines.append(ack_line(ack))):
        lines.append(flow.head())
        flow.run_campaign_word()
    return "".join(line + "\n" for line in lines)


def shared(scenario: Members) -> str:
    """The text of `shared`."""
    flows = list(flows_of(scenario))
    bottleneck = Bottleneck(scenario)
    bottleneck.run(flows)
    return table_text([flow.row() for flow in flows]) + bottleneck.line(flows) + "\n"


def shared_timeline(scenario: Members) -> str:
    """The text of `shared-timeline`, without `--wire`."""
    flows = list(flows_of(scenario))
    bottleneck = Bottleneck(scenario)
    bottleneck.run(flows)
    lines = [line for flow in flows for line in flow.lines()] + [bottleneck.line(flows)]
    return "".join(line + "\n" for line in lines)


def shared_acks(scenario: Members) -> str:
    """The text of `shared-acks`."""
    heard: List[List[str]] = [[] for _ in scenario["cases"]]
    flows = list(flows_of(scenario))
    for flow, lines in zip(flows, heard):
        flow.heard = writer_of(lines)
    bottleneck = Bottleneck(scenario)
    bottleneck.run(flows)
    parts = [line for flow, lines in zip(flows, heard) for line in [flow.head(), *lines]]
    return "".join(line + "\n" for line in [*parts, bottleneck.line(flows)])


def writer_of(lines: List[str]) -> Callable[[Acknowledgement], None]:
    """What appends the line of each acknowledgement to these lines."""
    return lambda ack: lines.append(ack_line(ack))


def ack_line(ack: Acknowledgement) -> str:
    """The line of an acknowledgement: the primitives that aren't 0, and the time."""
    return " ".join("%s=%d" % (name, ack[name]) for name in PRIMITIVES if ack[name] or name == "now")


def fold(text: str, given: Sequence[Mapping[str, int]]) -> str:
    """The text of `fold` of an accepted program and its acknowledgements."""
    meaning = Meaning(text)
    state = meaning.start({}, 0, 0, 0)
    lines: List[str] = []
    first, reports, stopped = 0, 0, False
    for number, ack in enumerate(given):
        if stopped:
            break
        outcome, state = meaning.one(state, ack)
        if isinstance(outcome, Fault):
            stopped = True
            lines.append("fault epoch=0 ack=%d kind=%s at=%s" % (number, outcome.kind, outcome.place))
        elif not isinstance(outcome, str):
            seen = (first, number + 1, ack.get("now", 0), state.cwnd, state.rate, fields_text(outcome))
            lines.append("report program=0 epoch=0 span=%d..%d now=%d cwnd=%d rate=%d%s" % seen)
            first, reports = number + 1, reports + 1
    ended = (len(given), reports, first, len(given), "yes" if stopped else "no", state.cwnd, state.rate)
    lines.append(
        "end acks=%d reports=%d tail=%d..%d stopped=%s cwnd=%d rate=%d" % ended + fields_text(meaning.shown(state))
    )
    return "".join(line + "\n" for line in lines)


def check_summary(text: str) -> str:
    """The first line of `check` of an accepted program."""
    meaning = Meaning(text)
    numbers = (len(meaning.blocks), len(meaning.fields), len(meaning.controls), meaning.need(), meaning.count())
    return "ok blocks=%d fields=%d controls=%d need=%d count=%d" % numbers
