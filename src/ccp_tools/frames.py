"""Reads what `ccp` prints into pandas frames.

    read_acks, acks_in           the acknowledgements of `acks`, `shared-acks` and `drive-acks`
    read_timeline, timeline_of   the reports, faults, epochs and ends of `timeline`, `shared-timeline`, `live` and
                                 `drive-timeline`
    read_table                   the rows of `campaign`, `shared` and `drive-table`
    read_shared                  the rows of `shared`, and its line `link`
    run_campaign, acks, timeline, figures   run the program on a scenario, and read what it prints

Every reader takes a text, bytes, or an open file. Times are microseconds of virtual time. A text that `ccp` doesn't
print is refused by BadText, which names the line.

`acks` prints few different sequences of names, so its lines are grouped by what is left of them without their digits,
and numpy reads the numbers of a group at once. That takes about 2 microseconds a line (bench/figures compares it with
one regular expression and with words in plain Python)."""

from __future__ import annotations

import re
from dataclasses import dataclass
from typing import IO, Any, Dict, Iterable, Iterator, List, Mapping, Sequence, Tuple, Union

import numpy as np
import pandas as pd

from . import parts as splitting
from . import program, texts
from .errors import BadText, Failed
from .scenario_files import GivenScenario, given_scenario, scenario_of
from .spans import Window
from .tables import COLUMNS, LIMITS, PRIMITIVES

Source = Union[str, bytes, IO[str], IO[bytes]]

DIGITS = b"0123456789"
# every byte but a digit becomes a blank
NUMBERS_ALONE = bytes(byte if byte in DIGITS else 32 for byte in range(256))
# the line that ends a text of flows on one link
LINK_LINE = b"link " + b" ".join(name.encode() + rb"=[0-9]{1,20}" for name in texts.LINK)
# bytes of a file that are read at once
PIECE = 1 << 23
# what was said on standard error, which is said once
SAID: List[str] = []
# the greatest value of a primitive, which is also what numpy makes of a greater one
GREATEST = 2**64 - 1


@dataclass(frozen=True)
class AckFrame:
    """The acknowledgements of a flow: its number from 0, its case, its agent, and a frame with a row for each. The
    frame's columns are PRIMITIVES: bytes, packets, microseconds (`now`, `rtt_sample_us`) and bytes a second (the
    rates) as uint64, `was_timeout` as bool. A primitive that isn't printed is 0."""

    number: int
    case: str
    agent: str
    frame: pd.DataFrame


# ---- acknowledgements


def acks_in(source: Source) -> Iterator[AckFrame]:
    """The flows of a text of `acks` or `shared-acks`, one after another: only one flow of a file is in memory."""
    has_link = False
    for line, head, body in parts_of(source):
        if has_link:
            raise BadText("nothing comes after the line `link`", line)
        body, has_link = without_link(body)
        number, case, agent = flow_of(line, head)
        yield AckFrame(number, case, agent, frame_of(body, line + 1))


def without_link(body: bytes) -> Tuple[bytes, bool]:
    """The lines below a line `flow` without the line `link` at their end, and whether there is one: it ends a text of
    `shared-acks`."""
    last = body.rstrip(b"\n").rpartition(b"\n")[2]
    is_link = re.fullmatch(LINK_LINE, last) is not None
    return (body[: body.rindex(last)] if is_link else body), is_link


def read_acks(source: Source) -> pd.DataFrame:
    """The acknowledgements of a text of `acks` in one frame.

    Columns: `flow` (the number from 0), `case` and `agent` (texts as categories), and the primitives, by the names and
    in the units of docs/language.md, each uint64, and `was_timeout` (bool). Source: `acks` or `shared-acks`."""
    return joined(list(acks_in(source)))


def joined(flows: Sequence[AckFrame]) -> pd.DataFrame:
    """The acknowledgements of flows in one frame, as read_acks has them. The categories of `case` are all cases in
    order, also those without an acknowledgement."""
    if not flows:
        return pd.DataFrame(columns=["flow", "case", "agent", *PRIMITIVES])
    made = pd.concat([flow.frame for flow in flows], ignore_index=True, copy=False)
    counts = [len(flow.frame) for flow in flows]
    made.insert(0, "flow", np.repeat([flow.number for flow in flows], counts))
    for place, name in ((1, "case"), (2, "agent")):
        words = [getattr(flow, name) for flow in flows]
        known = list(dict.fromkeys(words))
        codes = np.repeat([known.index(word) for word in words], counts)
        made.insert(place, name, pd.Categorical.from_codes(codes, known))
    return made


def parts_of(source: Source) -> Iterator[Tuple[int, bytes, bytes]]:
    """The number and the text of each line `flow`, and the lines below it."""
    line, head, held = 1, None, b""
    for piece in pieces_of(source):
        held += piece
        at = 0
        for begin, end in heads_in(held):
            if head is not None or begin:
                yield from part_of(line, head, held[at:begin])
            line += held.count(b"\n", at, begin) + (head is not None)
            head, at = held[begin:end], end
        held = held[at:]
    if head is not None or held:
        yield from part_of(line, head, held)


def heads_in(text: bytes) -> Iterator[Tuple[int, int]]:
    """Where the lines `flow` of a text begin and end."""
    begin = 0 if text.startswith(b"flow ") else text.find(b"\nflow ") + 1
    while begin or text.startswith(b"flow "):
        end = text.index(b"\n", begin) + 1
        yield begin, end
        if text.startswith(b"flow ", end):
            begin = end
            continue
        begin = text.find(b"\nflow ", end - 1) + 1
        if not begin:
            return


def part_of(line: int, head: bytes | None, body: bytes) -> Iterator[Tuple[int, bytes, bytes]]:
    """A part with its line `flow`. Nothing but empty lines comes before the first one; without flows the line `link` of
    a text of `shared-acks` may stand alone."""
    if head is not None:
        yield line, head, body
    elif without_link(body)[0].strip(b"\r\n"):
        blank = len(body) - len(body.lstrip(b"\r\n"))
        raise BadText("a line `flow` comes first", line + body.count(b"\n", 0, blank))


def pieces_of(source: Source) -> Iterator[bytes]:
    """The bytes of a text in pieces that end at the end of a line."""
    if isinstance(source, (str, bytes)):
        yield with_end(as_bytes(source))
        return
    rest = b""
    while True:
        piece = as_bytes(source.read(PIECE))
        if not piece:
            break
        whole, end, rest = (rest + piece).rpartition(b"\n")
        if end:
            yield with_end(whole + end)
    yield with_end(rest)


def as_bytes(text: str | bytes) -> bytes:
    """A text as bytes of UTF-8; bytes stay as they are."""
    return text.encode("utf-8", "surrogateescape") if isinstance(text, str) else text


def with_end(text: bytes) -> bytes:
    """A text with LF at the end of each line, the last one too."""
    text = text.replace(b"\r\n", b"\n")
    return text if not text or text.endswith(b"\n") else text + b"\n"


def flow_of(line: int, head: bytes) -> Tuple[int, str, str]:
    """The number, the case and the agent of a line `flow`."""
    found = re.fullmatch(rb"flow ([0-9]{1,9}) case=([!-~]+) agent=([a-z0-9_-]+)\n", head)
    if not found:
        raise BadText("a flow has a number, a case and an agent", line)
    return int(found[1]), found[2].decode(), found[3].decode()


def frame_of(body: bytes, first_line: int) -> pd.DataFrame:
    """The acknowledgements of lines, as AckFrame has them."""
    skeletons = np.array(body.translate(None, DIGITS).split(b"\n")[:-1], dtype=object)
    kinds, found = pd.factorize(skeletons)
    names = [names_of(kind, int((kinds == at).argmax()), body, first_line) for at, kind in enumerate(found)]
    widths = np.array([len(some) for some in names], dtype=np.int64)[kinds]
    values, begins = values_of(body, int(widths.sum()), first_line), widths.cumsum() - widths
    columns = {name: np.zeros(len(kinds), np.uint64) for name in PRIMITIVES}
    for at, some in enumerate(names):
        rows = np.flatnonzero(kinds == at)
        for place, name in enumerate(some):
            columns[name][rows] = values[begins[rows] + place]
    made: Dict[str, np.ndarray] = dict(columns)
    made["was_timeout"] = columns["was_timeout"] != 0
    frame = pd.DataFrame(made, copy=False)
    return frame if widths.all() else frame[widths > 0].reset_index(drop=True)


def names_of(skeleton: bytes, at: int, body: bytes, first_line: int) -> List[str]:
    """The primitives of lines that are this text without their digits; the line `at` of the body is the first of them.
    An empty line has none."""
    names: List[str] = []
    for word in skeleton.decode("utf-8", "replace").split(" ") if skeleton else []:
        name = word[:-1]
        if not word.endswith("=") or name not in PRIMITIVES or name in names:
            shown = body.split(b"\n")[at].decode("utf-8", "replace")[:60]
            what = "primitives of an acknowledgement are expected, each at most once, not %s" % shown
            raise BadText(what, first_line + at)
        names.append(name)
    return names


def values_of(body: bytes, count: int, first_line: int) -> np.ndarray:
    """The numbers of lines one after another; `count` is how many there are."""
    text = np.frombuffer(body, np.uint8)
    after = text[np.flatnonzero(text == ord("=")) + 1]
    values = np.fromstring(body.translate(NUMBERS_ALONE), np.uint64, sep=" ") if count else np.zeros(0, np.uint64)
    # each name is followed by a digit, and there are no other numbers: so none is within a name
    is_right = len(values) == count and ((after >= ord("0")) & (after <= ord("9"))).all()
    if not is_right or (values == GREATEST).any() or not count:
        check_lines(body, first_line)
    return values


def check_lines(body: bytes, first_line: int) -> None:
    """Refuses the first line with a name or a value that isn't one."""
    for at, line in enumerate(body.split(b"\n")):
        for word in line.split(b" ") if line else []:
            if not re.fullmatch(rb"[a-z_]+=[0-9]+", word) or int(word.partition(b"=")[2]) > GREATEST:
                shown = word.decode("utf-8", "replace")[:40]
                what = "name=number with a number below 2**64 is expected, not %s" % shown
                raise BadText(what, first_line + at)


# ---- timelines


@dataclass(frozen=True)
class Timeline:
    """A text of `timeline` or `live` as frames.

    `reports`: `flow`, `case`, `agent`, `program`, `epoch`, `first`, `end` (acknowledgements `first` to `end`, without
    `end`), `taken`, `answered` (counts of acknowledgements), `now` (microseconds), `cwnd` (bytes), `rate` (bytes a
    second), `reply` (none, update or change), `reply_program`, `reply_window` (bytes), `reply_cap` (bytes), and
    `field_NAME` for each field of a program, in the program's own unit. Where an agent outside sets them, `reply_rate`
    (bytes a second) and `reply_controlN`.
    `faults`: `flow`, `case`, `agent`, `epoch`, `ack` (its number from 0), `kind`, `place` (line:column).
    `epochs`: `flow`, `case`, `agent`, `number`, `program`, `at` (acknowledgements before it), `cwnd` (bytes).
    `ends`: `flow`, `case`, `agent`, `acks`, `reports`, `held`, `faults`, `epochs`, `first` (acknowledgements from it
    on are in no report), `stopped`, `cwnd` (bytes), `rate` (bytes a second)."""

    reports: pd.DataFrame
    faults: pd.DataFrame
    epochs: pd.DataFrame
    ends: pd.DataFrame


def read_timeline(source: Source) -> Timeline:
    """A text of `timeline`, `shared-timeline` or `live` as frames. Errors: BadText."""
    return timeline_of(texts.flows_in(text_of(source)))


def timeline_of(flows: Iterable[Any]) -> Timeline:
    """The frames of flows that ccp_tools.texts has read."""
    reports: List[Dict[str, Any]] = []
    faults: List[Dict[str, Any]] = []
    epochs: List[Dict[str, Any]] = []
    ends: List[Dict[str, Any]] = []
    for flow in flows:
        names = {"flow": flow.number, "case": flow.case, "agent": flow.agent}
        reports += [{**names, **report_row(report)} for report in flow.reports]
        faults += [{**names, **plain(fault, "epoch ack kind place")} for fault in flow.faults]
        epochs += [{**names, **plain(epoch, "number program at cwnd")} for epoch in flow.epochs]
        if flow.end:
            end = plain(flow.end, "acks reports held faults first stopped cwnd rate")
            ends.append({**names, **end, "epochs": len(flow.epochs)})
    shared = ["flow", "case", "agent"]
    return Timeline(
        pd.DataFrame(reports) if reports else pd.DataFrame(columns=[*shared, *REPORT.split()]),
        pd.DataFrame(faults, columns=[*shared, "epoch", "ack", "kind", "place"]),
        pd.DataFrame(epochs, columns=[*shared, "number", "program", "at", "cwnd"]),
        pd.DataFrame(ends, columns=[*shared, *END.split()]),
    )


REPORT = "program epoch first end taken answered now cwnd rate"
END = "acks reports held faults epochs first stopped cwnd rate"


def plain(of: Any, names: str) -> Dict[str, Any]:
    """The attributes of an object whose names a text lists, separated by spaces."""
    return {name: getattr(of, name) for name in names.split()}


def report_row(report: Any) -> Dict[str, Any]:
    """A report's values; those of its program's fields are named `field_NAME`."""
    made = plain(report, REPORT)
    if report.reply:
        made.update(reply=report.reply.kind, reply_program=report.reply.program)
        made.update(reply_window=report.reply.window, reply_cap=report.reply.cap)
        made.update({"reply_" + name: value for name, value in report.reply.values if name != "cwnd"})
    return {**made, **{"field_" + name: value for name, value in report.fields.items()}}


# ---- tables


def read_table(source: Source) -> pd.DataFrame:
    """The rows of a table of `campaign` or `shared`, with the columns COLUMNS: `case` and `agent` are texts, `acked`,
    `peak` and `cwnd` bytes, `now` microseconds, the rest counts. Errors: BadText."""
    return pd.DataFrame(texts.read_table(text_of(source)).rows, columns=COLUMNS)


def read_shared(source: Source) -> Tuple[pd.DataFrame, Dict[str, int]]:
    """The rows of a table of `shared`, as read_table has them, and the numbers of its line `link`: `rounds`, and the
    packets `sent`, `acked`, `lost` and `inflight` of all flows. Errors: BadText, also for a table without that line."""
    table = texts.read_table(text_of(source))
    if table.link is None:
        raise BadText("a table of `shared` has a line `link`, and this one hasn't")
    return pd.DataFrame(table.rows, columns=COLUMNS), table.link


def text_of(source: Source) -> Any:
    """A source as the readers of ccp_tools.texts take it: a string or an open text."""
    if isinstance(source, bytes):
        return source.decode("utf-8", "surrogateescape")
    return source


# ---- runs: a scenario is a dict, its text, or the path of its file (scenario_files.given_scenario)


def run_campaign(scenario: GivenScenario, **options: Any) -> pd.DataFrame:
    """The table that `campaign` prints of a scenario, as read_table has it. Options are those of program.run, as
    workers=4 or program=PATH. Errors: CcpError."""
    return pd.DataFrame(program.run_table(given_scenario(scenario), **options).rows, columns=COLUMNS)


def acks(scenario: GivenScenario, mode: str = "acks", **options: Any) -> pd.DataFrame:
    """The acknowledgements that `acks` or `shared-acks` prints of a scenario, as read_acks has them. Options are those
    of program.run. Errors: CcpError."""
    return read_acks(program.run(mode, given_scenario(scenario), **program.with_workers(mode, options)).output)


def timeline(scenario: GivenScenario, mode: str = "timeline", **options: Any) -> Timeline:
    """What `timeline` or `shared-timeline` prints of a scenario, as frames. Options are those of program.run. Errors:
    CcpError."""
    return read_timeline(program.run(mode, given_scenario(scenario), **program.with_workers(mode, options)).output)


def figures(scenario: GivenScenario, until_s: float | None = None, begin_s: float = 0, **options: Any) -> pd.DataFrame:
    """The figures of each case of a scenario, as metrics.figures has them: it runs `campaign`, `timeline` and `acks`.
    The figures are over the time after `begin_s` up to `until_s`, in seconds, or to each case's end. A scenario that
    one run doesn't take, as of more than 64 cases, is run in parts, which a line on standard error says once. Options
    are those of program.run. Errors: CcpError."""
    from . import metrics

    window = metrics.Window(round(begin_s * 1e6), None if until_s is None else round(until_s * 1e6))
    given = given_scenario(scenario)
    data = program.input_bytes(given)
    parts = splitting.parts_of(data, "metrics", LIMITS["cases"])
    if len(parts) == 1:
        return figures_of_run(data, window, options)
    members = scenario_of(data.decode("utf-8", "surrogateescape"))
    if not SAID:
        say_parts(len(members["cases"]), len(parts))
    found = []
    for part in parts:
        try:
            found.append(figures_of_run(part.text.encode("utf-8", "surrogateescape"), window, options))
        except Failed as error:
            raise Failed(error.status, splitting.in_whole(error.line, part.first)) from None
    columns = [*metrics.columns_of(members)[0], *metrics.METRICS, "doubts"]
    return pd.concat(found, ignore_index=True).reindex(columns=columns)


def figures_of_run(data: bytes, window: Window, options: Mapping[str, Any]) -> pd.DataFrame:
    """The figures of the cases of a scenario that one run takes."""
    from . import metrics

    table = program.run_table(data, **options)
    printed = program.run("acks", data, **program.with_workers("acks", options)).output
    reports = timeline(data, **options)
    members = scenario_of(data.decode("utf-8", "surrogateescape"))
    return metrics.figures(members, table=table, timeline=reports, acks=acks_in(printed), window=window)


def say_parts(cases: int, parts: int) -> None:
    """Says on standard error that a scenario is run in parts, and not again for another one."""
    SAID.append("parts")
    program.note("ccp_tools.figures: %d cases are more than one run takes: they are run in %d parts" % (cases, parts))
