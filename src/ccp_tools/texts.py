"""Readers of everything that `ccp` prints.

    kind_of                          what printed a text
    read_table, read_soak            the tables of `campaign`, `shared`, `drive-table` and `soak`
    read_flows, flows_in             the flows of `fold`, `live`, `timeline`, `shared-timeline`, `drive-timeline` and
                                     `rollout`
    read_acks, acks_in               the acknowledgements of `acks`, `shared-acks` and `drive-acks`
    read_link                        the packets of the link in a text of `shared`, `shared-timeline` or `shared-acks`
    counts_of, check_same_run        whether two texts are of one run

Numbers are whole numbers in the units that `ccp` prints: bytes, packets, and microseconds of virtual time. Every reader
takes a string, or an open file whose lines it reads one after another. What `ccp` doesn't print is refused by BadText,
which names the line. The forms are those of docs/formats.md."""
from __future__ import annotations

import re
from dataclasses import dataclass, field
from typing import Any, Callable, Dict, Iterable, Iterator, List, Mapping, Sequence, Tuple, Union

from .errors import BadText, CcpError
from .tables import COLUMNS, PRIMITIVES, SUMS

# the names of the numbers in the line `link` of `shared`, `shared-timeline` and `shared-acks`
LINK = "rounds sent acked lost inflight".split()

# the most digits of a number in a text: all are below 2**64
MOST_DIGITS = 20

Source = Union[str, Iterable[str]]
Row = Dict[str, Any]


# ---- what the texts say


@dataclass
class Table:
    """A table of `campaign`, `soak` or `shared`. A row is a dict from COLUMNS to values: `case` and `agent` are texts,
    the rest numbers. `total` is a dict from `cases` and SUMS to numbers, `link` one from LINK for `shared`, else None.
    `installs` maps a program's number to its Install frame, where the table came with `--wire`."""

    rows: List[Row]
    total: Dict[str, int]
    link: Dict[str, int] | None = None
    installs: Dict[int, bytes] = field(default_factory=dict)


@dataclass(frozen=True)
class Reply:
    """An agent's reply. `kind` is "none", "update" (with `window`) or "change" (with `program`, `window` and `cap`).

    The reply of an agent outside has `values` in place of a cap, in their order: pairs of `cwnd`, `rate` or `controlN`
    and a number. Its `window` is the last `cwnd`, or None."""

    kind: str
    window: int | None = None
    program: int | None = None
    cap: int | None = None
    values: Tuple[Tuple[str, int], ...] = ()


@dataclass
class Report:
    """A report on the acknowledgements `first` to `end`, without `end`. `fields` maps the program's fields to their
    values. `ticket`, `taken`, `answered` and `reply` are of `live` and `timeline`, and None otherwise."""

    program: int
    epoch: int
    first: int
    end: int
    now: int
    cwnd: int
    rate: int
    fields: Dict[str, int]
    line: int
    ticket: int | None = None
    taken: int | None = None
    answered: int | None = None
    reply: Reply | None = None


@dataclass
class FaultTicket:
    """A fault notice that an agent took: `ack` is the faulting acknowledgement."""

    ticket: int
    epoch: int
    ack: int
    taken: int
    answered: int
    reply: Reply
    line: int


@dataclass
class Fault:
    """A fault of the datapath program at the acknowledgement `ack`; `place` is line:column in the program's source."""

    epoch: int
    ack: int
    kind: str
    place: str
    line: int


@dataclass
class Epoch:
    """A change of program after `at` acknowledgements, with the window that it sent. `program` is None in a rollout,
    and `step` elsewhere."""

    number: int
    at: int
    cwnd: int
    line: int
    program: int | None = None
    step: int | None = None


@dataclass
class Entry:
    """What became of a step of a rollout after `at` acknowledgements. `refusal` is None where it was installed."""

    step: int
    at: int
    refusal: str | None
    line: int


@dataclass
class End:
    """How a flow ended. The acknowledgements `first` to `acks` are in no report. `held` and `faults` are None where the
    text has none of them (`fold` and `rollout`)."""

    acks: int
    reports: int
    first: int
    stopped: bool
    cwnd: int
    rate: int
    fields: Dict[str, int]
    line: int
    held: int | None = None
    faults: int | None = None


@dataclass
class Flow:
    """A flow of `live`, `timeline` or `rollout`, or the one of `fold`, whose number, case and agent are None.
    `tickets` are the Report and FaultTicket of `live` and `timeline` in order."""

    number: int | None = None
    case: str | None = None
    agent: str | None = None
    epochs: List[Epoch] = field(default_factory=list)
    entries: List[Entry] = field(default_factory=list)
    faults: List[Fault] = field(default_factory=list)
    tickets: List[Report | FaultTicket] = field(default_factory=list)
    reports: List[Report] = field(default_factory=list)
    end: End | None = None


class Ack(Dict[str, int]):
    """The primitives of one acknowledgement; one that isn't printed reads as 0."""

    def __missing__(self, name: str) -> int:
        if name in PRIMITIVES:
            return 0
        raise KeyError(name)


@dataclass
class AckFlow:
    """A flow of `acks`: its acknowledgements in order, each an Ack."""

    number: int
    case: str
    agent: str
    acks: List[Ack] = field(default_factory=list)


def numbered(source: Source) -> Iterator[Tuple[int, str]]:
    """The lines of a text that aren't empty, with their numbers from 1."""
    lines = source.split("\n") if isinstance(source, str) else source
    for number, line in enumerate(lines, 1):
        line = line.rstrip("\r\n")
        if line:
            yield number, line


def whole(line: int, name: str, text: str) -> int:
    """The number that a value stands for."""
    if not (text.isascii() and text.isdigit() and len(text) <= MOST_DIGITS):
        raise BadText("%s isn't a whole number: %s" % (name, text[:40]), line)
    return int(text)


def named(line: int, words: Sequence[str], names: Sequence[str]) -> List[str]:
    """The texts of values that stand in this order."""
    if len(words) < len(names):
        raise BadText("there is no %s=" % names[len(words)], line)
    found = []
    for word, name in zip(words, names):
        if not word.startswith(name + "="):
            raise BadText("%s= is expected, not %s" % (name, word[:40]), line)
        found.append(word[len(name) + 1 :])
    return found


def numbers(line: int, words: Sequence[str], names: Sequence[str]) -> Dict[str, int]:
    """The numbers that stand in this order, and nothing after them, as a dict."""
    if len(words) > len(names):
        raise BadText("there is more than is expected: %s" % words[len(names)][:40], line)
    return {name: whole(line, name, text) for name, text in zip(names, named(line, words, names))}


def fields_of(line: int, words: Sequence[str]) -> Dict[str, int]:
    """The fields at the end of a line."""
    made = {}
    for word in words:
        name, is_named, text = word.partition("=")
        if not is_named:
            raise BadText("a field is expected, not %s" % word[:40], line)
        made[name] = whole(line, name, text)
    return made


def span_of(line: int, text: str, name: str = "span") -> Tuple[int, int]:
    """The two numbers of FIRST..END."""
    found = re.fullmatch(r"([0-9]{1,20})\.\.([0-9]{1,20})", text)
    if not found:
        raise BadText("%s isn't FIRST..END: %s" % (name, text[:40]), line)
    return int(found.group(1)), int(found.group(2))


def reply_of(line: int, text: str) -> Reply:
    """The reply that a text stands for."""
    kind, *parts = text.split(":")
    if "=" in text or kind == "change" and len(parts) == 2:
        return own_reply(line, text)
    values = [whole(line, "reply", part) for part in parts]
    if kind == "none" and not values:
        return Reply("none")
    if kind == "update" and len(values) == 1:
        return Reply("update", window=values[0])
    if kind == "change" and len(values) == 3:
        return Reply("change", program=values[0], window=values[1], cap=values[2])
    raise BadText("a reply is none, update:WINDOW or change:PROGRAM:WINDOW:CAP, not %s" % text[:40], line)


OWN_REPLY = re.compile(r"(update|change:([0-9]{1,2})):((?:(?:cwnd|rate|control[0-9]{1,2})=[0-9]{1,20}(?:,(?!$)|$))*)")


def own_reply(line: int, text: str) -> Reply:
    """The reply of an agent outside."""
    found = OWN_REPLY.fullmatch(text)
    if not found:
        raise BadText("a reply of an agent outside is update:VALUES or change:PROGRAM:VALUES, not %s" % text[:40], line)
    pairs = [value.partition("=") for value in found[3].split(",") if value]
    values = tuple((name, whole(line, name, number)) for name, _, number in pairs)
    window = dict(values).get("cwnd")
    if found[2] is None:
        return Reply("update", window, values=values)
    return Reply("change", window, int(found[2]), values=values)


# -- flows of fold, live, timeline and rollout

SEEN = "program epoch span now cwnd rate".split()
TICKET = "program epoch span taken answered reply now cwnd rate".split()
NOTICE = "epoch ack taken answered reply".split()
END = "acks reports tail stopped cwnd rate".split()
LIVE_END = "acks reports held faults tail stopped cwnd rate".split()


def report_in(line: int, words: Sequence[str], names: Sequence[str]) -> Report:
    """The report of a line whose first values have these names, and whose fields come after them."""
    values = dict(zip(names, named(line, words, names)))
    first, end = span_of(line, values.pop("span"))
    reply = values.pop("reply", None)
    made = {name: whole(line, name, text) for name, text in values.items()}
    # the fields are what comes after the rate, and may have any name
    fields = fields_of(line, words[len(names) :])
    return Report(
        first=first, end=end, fields=fields, line=line, reply=reply_of(line, reply) if reply else None, **made
    )


def add_report(flow: Flow, line: int, words: Sequence[str]) -> None:
    """Adds the report of a line `report` to its flow."""
    flow.reports.append(report_in(line, words[1:], SEEN))


def add_ticket(flow: Flow, line: int, words: Sequence[str]) -> None:
    """Adds the report or the fault of a line `ticket` to its flow. A BadText where it is of neither."""
    if words[2:3] not in (["report"], ["fault"]):
        raise BadText("a ticket is one of a report or of a fault", line)
    number = whole(line, "ticket", words[1])
    if words[2] == "report":
        report = report_in(line, words[3:], TICKET)
        report.ticket = number
        flow.reports.append(report)
        flow.tickets.append(report)
    else:
        *counts, reply = named(line, words[3:], NOTICE)
        epoch, ack, taken, answered = [whole(line, name, text) for name, text in zip(NOTICE, counts)]
        flow.tickets.append(FaultTicket(number, epoch, ack, taken, answered, reply_of(line, reply), line))


def add_fault(flow: Flow, line: int, words: Sequence[str]) -> None:
    """Adds the fault of a line `fault` to its flow."""
    epoch, ack, kind, place = named(line, words[1:], ["epoch", "ack", "kind", "at"])
    flow.faults.append(Fault(whole(line, "epoch", epoch), whole(line, "ack", ack), kind, place, line))


def add_epoch(flow: Flow, line: int, words: Sequence[str]) -> None:
    """Adds the epoch of a line `epoch` to its flow. A BadText where it has no number."""
    if len(words) < 2:
        raise BadText("an epoch has a number", line)
    what = "step" if words[2:3] and words[2].startswith("step=") else "program"
    values = numbers(line, words[2:], [what, "at", "cwnd"])
    flow.epochs.append(Epoch(whole(line, "epoch", words[1]), line=line, **values))


def add_entry(flow: Flow, line: int, words: Sequence[str]) -> None:
    """Adds the step of a rollout, of a line `step`, to its flow. A BadText where it is neither installed nor
    refused."""
    if words[2:3] not in (["installed"], ["refused"]):
        raise BadText("a step is installed or refused", line)
    at = whole(line, "at", named(line, words[3:], ["at"])[0])
    refusal = " ".join(words[4:]) if words[2] == "refused" else None
    flow.entries.append(Entry(whole(line, "step", words[1]), at, refusal, line))


def add_end(flow: Flow, line: int, words: Sequence[str]) -> None:
    """Sets the end of a flow, of a line `end`."""
    names = LIVE_END if words[3:4] and words[3].startswith("held=") else END
    values = dict(zip(names, named(line, words[1:], names)))
    first, _ = span_of(line, values.pop("tail"), "tail")
    stopped = values.pop("stopped") == "yes"
    made = {name: whole(line, name, text) for name, text in values.items()}
    flow.end = End(first=first, stopped=stopped, fields=fields_of(line, words[1 + len(names) :]), line=line, **made)


ADD: Dict[str, Callable[[Flow, int, Sequence[str]], None]] = {
    "report": add_report,
    "ticket": add_ticket,
    "fault": add_fault,
    "epoch": add_epoch,
    "step": add_entry,
    "end": add_end,
}


def flow_in(line: int, words: Sequence[str]) -> Tuple[int, str, str | None]:
    """The number, case and agent of a line `flow`; a rollout has no agent."""
    if not 3 <= len(words) <= 4:
        raise BadText("a flow has a number and a case", line)
    case, *agent = named(line, words[2:], ["case", "agent"][: len(words) - 2])
    return whole(line, "flow", words[1]), case, agent[0] if agent else None


def before_link(source: Source) -> Iterator[Tuple[int, str]]:
    """The lines of a text with their numbers, without the line `link` that ends it if it is of a shared link."""
    has_link = False
    for line, text in numbered(source):
        if has_link:
            raise BadText("nothing comes after the line `link`: %s" % text[:60], line)
        if text.startswith("link "):
            numbers(line, text.split(" ")[1:], LINK)
            has_link = True
        else:
            yield line, text


def flows_in(source: Source) -> Iterator[Flow]:
    """The flows of a text of `fold`, `live`, `timeline`, `shared-timeline` or `rollout`, one after another. Install
    lines are skipped."""
    flow: Flow | None = None
    for line, text in before_link(source):
        words = text.split(" ")
        if words[0] == "install":
            continue
        if words[0] == "flow":
            if flow:
                raise BadText("flow %s has no line `end` before this line" % flow.number, line)
            flow = Flow(*flow_in(line, words))
        elif words[0] in ADD:
            flow = flow or Flow()
            ADD[words[0]](flow, line, words)
        else:
            raise BadText("no line of a flow: %s" % text[:60], line)
        if flow and flow.end:
            yield flow
            flow = None
    if flow:
        raise BadText("the text is cut: flow %s has no line `end`" % flow.number)


def read_flows(source: Source) -> List[Flow]:
    """The flows of a text of `fold`, `live`, `timeline`, `shared-timeline` or `rollout`, as a list of Flow."""
    return list(flows_in(source))


def read_link(source: Source) -> Dict[str, int]:
    """The line `link` at the end of a text of `shared`, `shared-timeline` or `shared-acks`: `rounds`, and the packets
    `sent`, `acked`, `lost` and `inflight` of all flows. Errors: BadText, also where there is no such line."""
    line, text = 0, ""
    for line, text in numbered(source):
        pass
    if not text.startswith("link "):
        raise BadText("there is no line `link` at the end", line)
    return numbers(line, text.split(" ")[1:], LINK)


def counts_of(flow: Flow) -> Dict[str, Any]:
    """The counts of a flow of `timeline` that its row of the table has too."""
    end = flow.end
    if end is None:
        raise CcpError("the flow %s has no line `end`" % flow.number)
    same = {name: getattr(end, name) for name in ("acks", "reports", "held", "faults", "cwnd")}
    return {**same, "epochs": len(flow.epochs), "tail": end.acks - end.first}


def same_run(case: str, what: str, counts: Mapping[str, Any], row: Row) -> None:
    """Refuses a text whose counts of a case differ from its row of the table: it is of another run."""
    for name, value in counts.items():
        if row[name] != value:
            more = "; a text of `live` isn't one of `timeline`" if what == "timeline" else ""
            where = "the case %s has %s=%s there and %s here" % (case, name, row[name], value)
            raise CcpError("the table and the %s are of different runs: %s%s" % (what, where, more))


# -- acknowledgements

NAMES_OF_ACKS = frozenset(PRIMITIVES)


def ack_in(line: int, text: str) -> Ack:
    """The acknowledgement of a line."""
    made = Ack()
    for word in text.split(" "):
        name, _, value = word.partition("=")
        if name not in NAMES_OF_ACKS:
            raise BadText("no primitive of an acknowledgement: %s" % word[:40], line)
        made[name] = whole(line, name, value)
    return made


def acks_in(source: Source) -> Iterator[AckFlow]:
    """The flows of a text of `acks` or `shared-acks`, one after another: a long text doesn't fill the memory."""
    flow: AckFlow | None = None
    for line, text in before_link(source):
        if text.startswith("flow "):
            if flow:
                yield flow
            words = text.split(" ")
            if len(words) != 4:
                raise BadText("a flow has a number, a case and an agent", line)
            number, case, agent = flow_in(line, words)
            flow = AckFlow(number, case, agent or "")
        elif flow:
            flow.acks.append(ack_in(line, text))
        else:
            raise BadText("a line `flow` comes first", line)
    if flow:
        yield flow


def read_acks(source: Source) -> List[AckFlow]:
    """The flows of a text of `acks` or `shared-acks`, as a list of AckFlow."""
    return list(acks_in(source))


# -- tables


def row_in(line: int, words: Sequence[str]) -> Row:
    """The row of a line of a table."""
    if len(words) != len(COLUMNS):
        raise BadText("a row has %d values, and this one %d" % (len(COLUMNS), len(words)), line)
    row = dict(zip(COLUMNS, words))
    return {name: text if name in ("case", "agent") else whole(line, name, text) for name, text in row.items()}


def install_in(line: int, words: Sequence[str]) -> Tuple[int, bytes]:
    """A program's number and its frame."""
    try:
        return whole(line, "program", words[1]), bytes.fromhex(words[2])
    except (IndexError, ValueError):
        raise BadText("an install line has a number and a frame in hex", line) from None


def read_table(source: Source) -> Table:
    """A table of `campaign`, `shared` or `soak`; that of `soak` has no rows. Its total is checked."""
    table, has_head, total = Table([], {}), False, False
    for line, text in numbered(source):
        words = text.split(" ")
        if words[0] == "install" and not has_head:
            number, frame = install_in(line, words)
            table.installs[number] = frame
        elif words == COLUMNS or (words[0] == "soak" and not has_head):
            has_head = True
        elif not has_head:
            raise BadText("no table: it begins with the columns", line)
        elif words[0] == "total" and words[1:2] and "=" in words[1]:
            if total:
                raise BadText("there is a second line `total`", line)
            table.total, total = numbers(line, words[1:], ["cases"] + SUMS), True
        elif not total:
            table.rows.append(row_in(line, words))
        elif words[0] == "link" and table.link is None:
            table.link = numbers(line, words[1:], LINK)
        else:
            raise BadText("nothing comes after the total: %s" % text[:60], line)
    return with_total(table, has_head)


def with_total(table: Table, has_head: bool) -> Table:
    """The table, where its total is that of its rows."""
    if not has_head:
        raise BadText("there is no table")
    if not table.total:
        raise BadText("the table is cut: there is no line `total`")
    if table.rows and table.total["cases"] != len(table.rows):
        raise BadText("the total has %d cases, and the table %d" % (table.total["cases"], len(table.rows)))
    for name in SUMS if table.rows else []:
        if table.total[name] != sum(row[name] for row in table.rows):
            raise BadText("the total's %s isn't the sum of its column" % name)
    return table


def read_soak(source: Source) -> Dict[str, int]:
    """The text of `soak` as a dict: `number`, `cases` and the sums."""
    lines = list(numbered(source))
    if len(lines) != 2 or not lines[0][1].startswith("soak ") or not lines[1][1].startswith("total "):
        raise BadText("no text of `soak`: it has the lines `soak` and `total`")
    (first, head), (second, total) = lines
    sums = numbers(second, total.split(" ")[1:], ["cases"] + SUMS)
    return {**numbers(first, head.split(" ")[1:], ["number"]), **sums}


# what printed a text whose first line begins with this word
KINDS = {
    "soak": "soak",
    "report": "fold",
    "fault": "fold",
    "end": "fold",
    "ok": "check",
    "yes": "audit",
    "no": "audit",
}


def kind_of(text: Source) -> str:
    """What printed a text: "table" (`campaign` and `shared`), "soak", "live" (and `timeline`, `shared-timeline`),
    "rollout", "fold", "acks" (and `shared-acks`), "check", "audit" or "install" (install lines alone); "" where it is
    none of these."""
    lines = [line for _, line in zip(range(40), (line for _, line in numbered(text)))]
    rest = [line for line in lines if not line.startswith("install ")]
    if not rest:
        return "install" if lines else ""
    first = rest[0].split(" ")
    if first == COLUMNS:
        return "table"
    if first[0] == "flow":
        if len(first) == 3:
            return "rollout"
        return "live" if rest[1:] and rest[1].split(" ")[0] in ADD else "acks"
    return KINDS.get(first[0], "")
