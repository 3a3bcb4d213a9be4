"""Traces from what was captured or measured: CSV of packets, intervals or rates, iperf's results, packet captures.

A packet is a chance each time that its bytes have come. Each source becomes a list of Spans, each of which has a
number of packets between two times in milliseconds. `chances` makes the times of a trace of them."""
from __future__ import annotations

import csv
import json
import math
import re
import shutil
from dataclasses import dataclass
from datetime import datetime, timezone
from typing import Any, Iterable, Iterator, List, Sequence, Tuple

from .arguments import warn
from .errors import CcpError
from .files import PathLike, name_of
from .interrupts import run_process
from .trace_files import is_capture, read_plain, read_text, recognised, text_of, what_is, without_mark

# the most chances of a trace that is made here: some 400 times what a scenario holds
MOST_CHANCES = 50_000_000

UNITS = {"s": 1000.0, "ms": 1.0, "us": 0.001}
# what a rate is in bits a second
RATES = {"mbps": 1e6, "kbps": 1e3, "bps": 1.0, "bytes-per-second": 8.0}
COUNTS = ["bytes", "packets", "rows", *RATES]


@dataclass(frozen=True)
class Span:
    """So many packets between two times in milliseconds; `place` names where it stands, for a message."""

    begin: float
    end: float
    packets: float
    place: str


def chances(spans: Iterable[Span]) -> List[int]:
    """The times at which a whole packet more has come; those of a span come evenly between its times."""
    times: List[int] = []
    total, before = 0.0, -math.inf
    for span in spans:
        if span.end < span.begin or span.begin < before - 1e-6:
            raise CcpError("%s: its time is before that of the line before" % span.place)
        more = int(total + span.packets + 1e-9) - len(times)
        if len(times) + more > MOST_CHANCES:
            raise CcpError("%s: more than %d packets up to here" % (span.place, MOST_CHANCES))
        first = len(times)
        length = span.end - span.begin
        times += [round(span.begin + length * (first + k + 1 - total) / span.packets) for k in range(more)]
        total, before = total + span.packets, span.end
    return times


# ---- CSV


@dataclass(frozen=True)
class Table:
    """How a CSV text is read: which columns have the time and the count, as names or numbers from 1; what the count
    is (one of COUNTS); the time's unit (a key of UNITS) or its form for strptime; the sign between columns, "" for
    any blanks; the bytes of a packet; whether a row's time is the begin of its interval."""

    time_column: str = "1"
    count_column: str = "2"
    count: str = "bytes"
    unit: str = "s"
    time_format: str | None = None
    separator: str = ","
    packet: int = 1500
    is_begin: bool = False


@dataclass(frozen=True)
class Row:
    """A row: its time in milliseconds, its value, and its place."""

    time: float
    value: float
    place: str


def packet_spans(path: PathLike, table: Table) -> List[Span]:
    """The packets of a CSV file with a row a packet; the first one comes at 0."""
    rows = rows_of(path, table)
    each = 1 if table.count in ("packets", "rows") else 1 / table.packet
    return [Span(row.time - rows[0].time, row.time - rows[0].time, row.value * each, row.place) for row in rows]


def interval_spans(path: PathLike, table: Table) -> List[Span]:
    """The intervals of a CSV file with a row an interval. The first one begins at 0, or as long before its end as the
    second one is long, where its time is that of a clock."""
    rows = rows_of(path, table)
    spans = begin_spans(rows, path) if table.is_begin else end_spans(rows)
    shift = spans[0].begin
    return [Span(span.begin - shift, span.end - shift, packets_in(span, table), span.place) for span in spans]


def packets_in(span: Span, table: Table) -> float:
    """The packets of an interval whose value is a count or a rate."""
    if table.count in RATES:
        return span.packets * RATES[table.count] * (span.end - span.begin) / 1000 / (8 * table.packet)
    return span.packets / (1 if table.count == "packets" else table.packet)


def end_spans(rows: Sequence[Row]) -> List[Span]:
    """Intervals that end at their rows' times."""
    step = rows[1].time - rows[0].time if len(rows) > 1 else math.inf
    begin = rows[0].time - step if rows[0].time > 1.5 * step else 0.0
    ends = [begin] + [row.time for row in rows]
    return [Span(before, row.time, row.value, row.place) for before, row in zip(ends, rows)]


def begin_spans(rows: Sequence[Row], path: PathLike) -> List[Span]:
    """Intervals that begin at their rows' times; the last one is as long as the one before it."""
    if len(rows) < 2:
        raise CcpError(
            "%s: two rows at least are needed: the second one says how long the first one holds" % name_of(path)
        )
    last = rows[-1].time + (rows[-1].time - rows[-2].time)
    ends = [row.time for row in rows[1:]] + [last]
    return [Span(row.time, end, row.value, row.place) for row, end in zip(rows, ends)]


def rows_of(path: PathLike, table: Table) -> List[Row]:
    """The rows of a CSV file. A heading is skipped, and its names may stand for columns."""
    lines = list(cells_of(without_mark(read_text(path, "CSV")), table.separator, name_of(path)))
    if not lines:
        raise CcpError("%s: there is nothing in it" % name_of(path))
    heading = lines[0][1]
    time_at = column_of(table.time_column, heading, path)
    count_at = None if table.count == "rows" else column_of(table.count_column, heading, path)
    if time_at < len(heading) and not is_time(heading[time_at], table):
        lines = lines[1:]
    found = []
    for place, cells in lines:
        time = time_in(cells, time_at, table, place)
        found.append(Row(time, 1 if count_at is None else number_in(cells, count_at, place), place))
    if not found:
        raise CcpError("%s: there is a heading and no row" % name_of(path))
    return found


def cells_of(text: str, separator: str, name: str) -> Iterator[Tuple[str, List[str]]]:
    """The cells of each row that isn't empty, with its place."""
    lines = text.splitlines()
    rows: Iterable[List[str]] = (
        csv.reader(lines, delimiter=separator) if separator else (line.split() for line in lines)
    )
    try:
        for number, cells in enumerate(rows, 1):
            if any(cell.strip() for cell in cells) and not cells[0].startswith("#"):
                yield "%s:%d" % (name, number), cells
    except csv.Error as error:
        raise CcpError("%s: no CSV: %s" % (name, error)) from None


def column_of(column: str, heading: Sequence[str], path: PathLike) -> int:
    """Where a column stands, from 0."""
    if re.fullmatch(r"[0-9]{1,6}", column):
        return int(column) - 1
    names = [name.strip().strip('"') for name in heading]
    if column not in names:
        raise CcpError(
            "%s: there is no column %s; the first line has %s" % (name_of(path), column, ", ".join(names)[:200])
        )
    return names.index(column)


def cell_in(cells: Sequence[str], at: int, place: str) -> str:
    """The text of a cell."""
    if at < len(cells):
        return cells[at].strip()
    raise CcpError("%s: there is no column %d%s: %s" % (place, at + 1, other_separator(cells), ",".join(cells)[:60]))


def other_separator(cells: Sequence[str]) -> str:
    """Advice on --separator, where a row that is one cell has another sign between its values."""
    for sign, name in ((";", "';'"), ("\t", "tab"), (" ", "space"), (",", "','")):
        if len(cells) == 1 and sign in cells[0].strip():
            return "; --separator %s may split the line" % name
    return ""


def number_in(cells: Sequence[str], at: int, place: str) -> float:
    """The number of a cell, from 0 on."""
    text = cell_in(cells, at, place)
    try:
        found = float(text)
    except ValueError:
        what = text[:40] or "it is empty"
        raise CcpError("%s: no number in column %d%s: %s" % (place, at + 1, other_separator(cells), what)) from None
    if not 0 <= found < 1e15:
        raise CcpError("%s: column %d: %s is no count, rate or time" % (place, at + 1, text[:40]))
    return found


def time_in(cells: Sequence[str], at: int, table: Table, place: str) -> float:
    """The time of a row in milliseconds."""
    if table.time_format is None:
        return number_in(cells, at, place) * UNITS[table.unit]
    text = cell_in(cells, at, place)
    try:
        found = datetime.strptime(text, table.time_format)
    except ValueError:
        raise CcpError(
            "%s: column %d isn't a time of the form %s: %s" % (place, at + 1, table.time_format, text[:40])
        ) from None
    # without a zone it counts as UTC, so that no hour is left out or comes twice
    return (found if found.tzinfo else found.replace(tzinfo=timezone.utc)).timestamp() * 1000


def is_time(text: str, table: Table) -> bool:
    """Whether a cell of the first line is a time, so that this line is no heading."""
    try:
        time_in([text], 0, table, "")
    except CcpError:
        return is_number(text)
    return True


def is_number(text: str) -> bool:
    """Whether a text is a number."""
    try:
        float(text)
    except ValueError:
        return False
    return True


# ---- iperf


def iperf_spans(path: PathLike, packet: int) -> List[Span]:
    """The intervals of `iperf -y C`. Its last line, a sum, is left out, and so is what doesn't follow on."""
    text = without_mark(read_text(path, "the CSV of `iperf -y C`"))
    found: List[Span] = []
    for place, cells in cells_of(text, ",", name_of(path)):
        ends = re.fullmatch(r"([0-9]+\.?[0-9]*)-([0-9]+\.?[0-9]*)", cells[6]) if len(cells) > 7 else None
        if not ends:
            raise CcpError(
                "%s: no interval of `iperf -y C`%s: %s"
                % (place, hint_of(text, "the CSV of iperf"), ",".join(cells)[:60])
            )
        begin, end = 1000 * float(ends.group(1)), 1000 * float(ends.group(2))
        if not found or abs(begin - found[-1].end) < 1e-6:
            found.append(Span(begin, end, number_in(cells, 7, place) / packet, place))
    if not found:
        raise CcpError("%s: there is nothing in it" % name_of(path))
    return found


def hint_of(text: str, own: str) -> str:
    """In parentheses what a text is, where it isn't what was expected."""
    what = recognised(text)
    return "" if what is None or own in what.partition(";")[0] else " (it is %s)" % what


def iperf3_spans(path: PathLike, packet: int, is_reverse: bool = False) -> List[Span]:
    """The intervals of iperf3's JSON, all streams together; those that it omits at the beginning (-O) are left out.
    With `is_reverse` those of the other direction of a run with --bidir."""
    text = without_mark(read_text(path, "JSON of iperf3"))
    name = "sum_bidir_reverse" if is_reverse else "sum"
    found: List[Span] = []
    for at, interval in enumerate(iperf3_intervals(text, path)):
        place = "%s: intervals[%d]" % (name_of(path), at)
        span = iperf3_span(interval, name, packet, place)
        if span:
            found.append(span)
    if not found:
        raise CcpError("%s: it has no interval; iperf3 writes one each second, with -i another time" % name_of(path))
    shift = found[0].begin
    return [Span(span.begin - shift, span.end - shift, span.packets, span.place) for span in found]


def iperf3_span(interval: Any, name: str, packet: int, place: str) -> Span | None:
    """The packets of an interval; None where iperf3 omits it."""
    found = interval.get(name) if isinstance(interval, dict) else None
    if not isinstance(found, dict):
        raise CcpError("%s: there is no member %s" % (place, name))
    values: List[Any] = [found.get(key) for key in ("start", "end", "bytes")]
    if not all(type(value) in (int, float) and 0 <= value < 1e15 for value in values):
        raise CcpError("%s: %s has no numbers start, end and bytes" % (place, name))
    if found.get("omitted") is True:
        return None
    begin, end, count = values
    return Span(1000 * begin, 1000 * end, count / packet, place)


def iperf3_intervals(text: str, path: PathLike) -> List[Any]:
    """The intervals of one JSON object, or of the lines that --json-stream writes."""
    place = name_of(path)
    if not text.strip():
        raise CcpError("%s: there is nothing in it" % place)
    try:
        made = json.loads(text)
    except (ValueError, RecursionError):
        return streamed_intervals(text, place)
    if isinstance(made, dict) and isinstance(made.get("error"), str) and not made.get("intervals"):
        raise CcpError("%s: iperf3 failed: %s" % (place, made["error"][:80]))
    if not isinstance(made, dict) or not isinstance(made.get("intervals"), list):
        raise CcpError("%s: JSON of iperf3 is expected, and it is %s" % (place, recognised(text) or "another text"))
    return made["intervals"]


def streamed_intervals(text: str, place: str) -> List[Any]:
    """The intervals of a JSON object a line."""
    found = []
    for number, line in enumerate(text.split("\n"), 1):
        try:
            event = json.loads(line) if line.strip() else {}
        except (ValueError, RecursionError):
            event = None
        if not isinstance(event, dict):
            what = recognised(text) or "another text"
            raise CcpError("%s:%d: JSON of iperf3 is expected, and it is %s" % (place, number, what))
        if event.get("event") == "interval":
            found.append(event.get("data"))
    return found


# ---- packet captures


def capture_spans(path: PathLike, packet: int, display_filter: str | None = None) -> List[Span]:
    """The packets of a packet capture (pcap or pcapng), as tshark reads them; the first one comes at 0.
    `display_filter` is one of tshark's, as `tcp.srcport == 5001`."""
    data = read_plain(path)
    place = name_of(path)
    if not is_capture(data):
        what = describe(data, path)
        raise CcpError("%s: a packet capture (pcap, pcapng) is expected, and it is %s" % (place, what))
    rows = [line.split(",") for line in captured(data, place, display_filter).splitlines()]
    if not rows:
        raise CcpError("%s: no packet%s in it" % (place, " that the filter takes is" if display_filter else " is"))
    found = []
    for number, cells in enumerate(rows, 1):
        spot = "%s: packet %d" % (place, number)
        time = 1000 * number_in(cells, 0, spot)
        found.append(Span(time, time, number_in(cells, 1, spot) / packet, spot))
    first = found[0].begin
    return [Span(span.begin - first, span.end - first, span.packets, span.place) for span in found]


def describe(data: bytes, path: PathLike) -> str:
    """What bytes are that are no capture."""
    if not data:
        return "empty"
    try:
        return recognised(text_of(data, path)) or "a text"
    except CcpError:
        return what_is(data) or "a text that isn't UTF-8"


def captured(data: bytes, place: str, display_filter: str | None) -> str:
    """A line a packet, with its time and its bytes."""
    command = shutil.which("tshark")
    if command is None:
        raise CcpError(
            "%s: it is a packet capture, and tshark isn't installed, which reads it (Debian's package tshark)" % place
        )
    words = [command, "-n", "-r", "-", "-T", "fields", "-E", "separator=,", "-e", "frame.time_epoch", "-e", "frame.len"]
    words += ["-Y", display_filter] if display_filter else []
    ran = run_process(words, data)
    # tshark warns about running as root on a line of its own
    lines = [
        line for line in ran.stderr.decode("utf-8", "replace").splitlines() if line.strip() and "as user" not in line
    ]
    why = lines[-1].strip() if lines else "status %d" % ran.returncode
    if ran.returncode and "cut short" in why:
        warn("%s: the capture ends in the middle of a packet, which is left out" % place)
    elif ran.returncode:
        raise CcpError("%s: tshark: %s" % (place, why))
    return ran.stdout.decode("utf-8", "replace")
