"""Writes what `ccp` prints as CSV, JSON or Parquet, for spreadsheets and data frames.

    ccp table [--what WHAT] [--format csv|json|parquet] [--out FILE] [FILE]

    ccp timeline examples/live.json | ccp table > reports.csv

FILE is standard input where it is `-` or isn't given. What is written depends on what printed the text:

campaign, shared         a line for each case, with the table's columns; of `shared` also link_rounds, link_sent,
                         link_acked, link_lost and link_inflight, which are the same in each line. --what link writes
                         that line alone.
soak                     one line: the number and the sums
timeline, live, fold, rollout
                         a line for each report: flow, case, ticket, program, epoch, first, end, taken, answered,
                         reply, now, cwnd, rate, and a column for each field that some report has. A field with the
                         name of a column before it has the name field_NAME. What a line doesn't have is empty.
                         --what faults, epochs, steps or flows (the lines `end`) writes these instead.
acks                     a line for each acknowledgement: flow, case, agent, ack (its number from 0), and all primitives

Times are in microseconds, windows in bytes. JSON is a list of objects; what a line doesn't have is null. Parquet needs
--out FILE and the Python module pyarrow. Install lines are left out. An empty text, and one that `ccp` doesn't print,
is refused with its line.

Exit status: 0; 1 where the text is refused; 2 where an argument is wrong."""
from __future__ import annotations

import argparse
import csv
import itertools
import json
import sys
from typing import IO, Any, Callable, Dict, Iterable, Iterator, List, Sequence, Tuple

from . import texts
from .errors import BadText, CcpError, UsageError
from .files import lines_of, name_of, reason_of
from .tables import COLUMNS, PRIMITIVES

REPORT = "flow case ticket program epoch first end taken answered reply now cwnd rate".split()
END = "flow case agent acks reports held faults tail stopped cwnd rate".split()

# the names of columns, and the rows
Columns = Tuple[List[str], Iterable[Sequence[Any]]]
Lines = Iterable[str]


# ---- tables


def table(lines: Lines) -> Columns:
    """The cases of `campaign` or `shared`."""
    made = texts.read_table(lines)
    link = {"link_" + name: value for name, value in (made.link or {}).items()}
    names = COLUMNS + list(link)
    return names, ([{**row, **link}[name] for name in names] for row in made.rows)


def link_line(lines: Lines) -> Columns:
    """The line `link` of a table of `shared`."""
    made = texts.read_table(lines)
    if not made.link:
        raise BadText("there is no line `link`: this is no table of `shared`")
    return list(made.link), [list(made.link.values())]


def soak(lines: Lines) -> Columns:
    """The sums of `soak`."""
    values = texts.read_soak(lines)
    return list(values), [list(values.values())]


# ---- flows


def reply_text(reply: texts.Reply) -> str:
    """A reply as `ccp` prints it."""
    if reply.values or reply.kind == "change" and reply.cap is None:
        head = "update" if reply.program is None else "change:%d" % reply.program
        return "%s:%s" % (head, ",".join("%s=%d" % value for value in reply.values))
    values = [reply.program, reply.window, reply.cap]
    return ":".join([reply.kind] + [str(value) for value in values if value is not None])


def with_fields(columns: List[str], rows: List[Tuple[Dict[str, Any], Dict[str, int]]]) -> Columns:
    """The columns of pairs of values by column and fields; a field with a column's name gets one of its own."""
    fields = list(dict.fromkeys(name for _, of in rows for name in of))
    heads = ["field_" + name if name in columns else name for name in fields]
    cells = ([values.get(name) for name in columns] + [of.get(name) for name in fields] for values, of in rows)
    return columns + heads, cells


def reports(lines: Lines) -> Columns:
    """The reports of each flow."""
    rows = []
    for flow in texts.flows_in(lines):
        for report in flow.reports:
            values = {name: getattr(report, name) for name in REPORT[2:]}
            values.update(flow=flow.number, case=flow.case, reply=report.reply and reply_text(report.reply))
            rows.append((values, report.fields))
    return with_fields(REPORT, rows)


def ends(lines: Lines) -> Columns:
    """How each flow ended."""
    rows = []
    for flow in texts.flows_in(lines):
        end = flow.end
        assert end is not None  # flows_in refuses a flow without it
        values = {name: getattr(end, name, None) for name in END}
        values.update(flow=flow.number, case=flow.case, agent=flow.agent)
        values.update(tail="%d..%d" % (end.first, end.acks), stopped="yes" if end.stopped else "no")
        rows.append((values, end.fields))
    return with_fields(END, rows)


def each(lines: Lines, names: List[str], of: Callable[[texts.Flow], Iterable[Any]]) -> Columns:
    """The columns of some lines of flows: their flow, their case, and the attributes of these names."""
    found = [(flow, item) for flow in texts.flows_in(lines) for item in of(flow)]
    rows = ([flow.number, flow.case] + [getattr(item, name) for name in names] for flow, item in found)
    return ["flow", "case"] + names, rows


def faults(lines: Lines) -> Columns:
    """The faults of each flow."""
    names, rows = each(lines, ["epoch", "ack", "kind", "place"], lambda flow: flow.faults)
    return names[:-1] + ["at"], rows


def epochs(lines: Lines) -> Columns:
    """The changes of program of each flow."""
    return each(lines, ["number", "program", "step", "at", "cwnd"], lambda flow: flow.epochs)


def steps(lines: Lines) -> Columns:
    """The steps of a rollout, installed and refused."""
    return each(lines, ["step", "at", "refusal"], lambda flow: flow.entries)


def acks(lines: Lines) -> Columns:
    """The acknowledgements; the rows come one after another, so that a long text doesn't fill the memory."""
    names = ["flow", "case", "agent", "ack"] + PRIMITIVES
    return names, (
        [flow.number, flow.case, flow.agent, at] + [ack[name] for name in PRIMITIVES]
        for flow in texts.acks_in(lines)
        for at, ack in enumerate(flow.acks)
    )


FLOWS: Dict[str, Callable[[Lines], Columns]] = {
    "reports": reports,
    "faults": faults,
    "epochs": epochs,
    "flows": ends,
}
MADE: Dict[str, Dict[str, Callable[[Lines], Columns]]] = {
    "table": {"cases": table, "link": link_line},
    "soak": {"sums": soak},
    "live": FLOWS,
    "fold": FLOWS,
    "rollout": {**FLOWS, "steps": steps},
    "acks": {"acks": acks},
}
WHATS = sorted({what for whats in MADE.values() for what in whats})


def columns_of(lines: Iterator[str], what: str | None = None) -> Columns:
    """The names of the columns and the rows of a text, whose kind its first lines show. `what` is one of the words of
    --what, or None for the first that the text has."""
    begin = list(itertools.islice(lines, 60))
    kind = texts.kind_of(begin)
    if kind not in MADE:
        raise unknown(begin)
    whats = MADE[kind]
    if what and what not in whats:
        raise BadText("there are no %s in this text, but %s" % (what, ", ".join(whats)))
    return whats[what or next(iter(whats))](itertools.chain(begin, lines))


def unknown(begin: List[str]) -> BadText:
    """The error of a text that nothing here writes."""
    for number, line in enumerate(begin, 1):
        if line.strip():
            shown = line.strip()[:60].encode("ascii", "backslashreplace").decode("ascii")
            return BadText("it isn't what a mode of ccp prints: %s" % shown, number)
    return BadText("there is nothing in it")


# ---- formats


def write_csv(columns: Columns, out: IO[str]) -> None:
    """Writes a heading and a line for each row."""
    names, rows = columns
    made = csv.writer(out, lineterminator="\n")
    made.writerow(names)
    made.writerows(rows)


def write_json(columns: Columns, out: IO[str]) -> None:
    """Writes a list of objects, one a line."""
    names, rows = columns
    between = "["
    for row in rows:
        out.write("%s\n %s" % (between, json.dumps(dict(zip(names, row)))))
        between = ","
    out.write("\n]\n" if between == "," else "[]\n")


def write_parquet(columns: Columns, path: str) -> None:
    """Writes a Parquet file by pandas and pyarrow."""
    import pandas
    import pyarrow  # noqa: F401 (pandas doesn't name what is missing)

    names, rows = columns
    pandas.DataFrame(list(rows), columns=names).to_parquet(path)


def add_arguments(parser: argparse.ArgumentParser) -> None:
    """Adds the arguments of `ccp table`."""
    parser.add_argument("file", nargs="?", default="-", metavar="FILE", help="what ccp printed (standard input)")
    parser.add_argument("--what", choices=WHATS, help="the lines to write (the first kind that the text has)")
    parser.add_argument("--format", choices=("csv", "json", "parquet"), default="csv", help="the form (csv)")
    parser.add_argument("--out", metavar="FILE", help="the file to write (standard output)")


def run(arguments: argparse.Namespace) -> int:
    """Writes the table of a text."""
    if arguments.format == "parquet" and not arguments.out:
        raise UsageError("--format parquet needs --out FILE")
    with lines_of(arguments.file) as file:
        try:
            columns = columns_of(iter(file), arguments.what)
            if arguments.format == "parquet":
                write_parquet(columns, arguments.out)
            else:
                write_out(columns, write_json if arguments.format == "json" else write_csv, arguments.out)
        except BadText as error:
            raise CcpError("%s: %s" % (name_of(arguments.file), error)) from None
    return 0


def write_out(columns: Columns, write: Callable[[Columns, IO[str]], None], path: str | None) -> None:
    """Writes to a file, or to standard output where there is no path."""
    if path is None:
        write(columns, sys.stdout)
        return
    try:
        with open(path, "w", encoding="utf-8", newline="") as out:
            write(columns, out)
    except OSError as error:
        raise CcpError("%s: %s" % (path, reason_of(error))) from None
