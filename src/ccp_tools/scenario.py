"""Makes a scenario from trace files and a grid of senders, queues, delays, losses, seeds and marks.

    ccp scenario [OPTION].. [NAME=]TRACE-FILE.. > scenario.json

    ccp scenario --queue 20,200 --delay-ms 10,40 examples/traces/*.trace > scenario.json
    ccp campaign scenario.json

Traces. A trace file is one as Mahimahi records them: a time in whole milliseconds a line, not falling; at each such
time the link can send one packet, and after the last time the trace begins anew. `-` is standard input. A trace is
named by its file without the ending .trace or .txt, so Mahimahi's X.down and X.up stay apart; NAME=FILE gives it
another name. A trace is shortened only where --cut MS asks for it.

Queues. --queue takes packets, or multiples of the bandwidth-delay product of the trace's mean rate and the delay, as
1bdp; --queue-ms takes milliseconds at the mean rate.

Links. --link TRACE:KEY=VALUE,.. is a recording with conditions of its own, as lte.trace:delay=50,queue=1bdp: delay
(ms), queue (packets, 1bdp or 50ms), losses, mark, timeout (ms) and mss. What it doesn't say is that of the grid. One
recording may be several links: NAME=TRACE names each.

The grid. There is a case for each trace, sender, queue, delay, loss, seed and mark, in this order; the last one varies
fastest. A list has commas between its values; among numbers, 10..100:10 is 10, 20 and on to 100, and 1..20 is each of
them.

Senders. Where none is named they are `linux-reno` and `linux-cubic`, programs that come with ccp, which do on each
acknowledgement what Linux's senders do (docs/senders.md). --senders takes these, an agent, as `reno`, or one with your
own programs: LABEL=PROGRAM runs a program in slow start and in congestion avoidance with Reno as the agent,
`cubic:PROGRAM` has another agent, `reno:SLOW:AVOID` runs SLOW in slow start and AVOID in avoidance, and `reno::AVOID`
runs the built-in one in slow start. LABEL= before any of these names the sender. A program is a file, or a name that
--portus NAME=FILE gives. --set NAME=LIST makes a sender for each number of a control variable that the senders' own
programs declare, as (high 4): of delay=FILE and --set high=2,4 the senders delay-high2 and delay-high4. Several --set
give each combination. A sender whose programs don't declare the variable stays as it is.

Losses. --losses takes `none`, numbers of packets as 17+40+900, or losses by chance: `rate:P` loses each packet with the
chance P, and `gilbert:P:R` loses bursts: after a packet that came through the next one begins a burst with the chance
P, and after a lost one the burst ends with the chance R, so that bursts have 1/R packets on average and P/(P+R) of all
packets are lost. --seeds 1..20 repeats each loss by chance with each seed; `rate:P:SEED` and `gilbert:P:R:SEED` have a
seed of their own. Equal seeds lose the same packets in every case, whatever the trace, the sender and the queue. Losses
are drawn for the first 2*acks packets of a flow; packets after these are lost by the queue alone.

Flows on one link. --shared TRACE:QUEUE:QUANTUM-MS[:ROUNDS] gives all flows one link. --start says when each of them
begins, in seconds of the link's time: a value for each flow in order, as 0,5,10, or the time from each flow's start to
the next one's: --start 5 starts the first at 0 s, the second at 5 s, the third at 10 s.

Length. A case ends after --acks acknowledgements. --seconds S computes them for each trace and delay: as many as the
link has chances in the first S seconds less the delay. So a sender that keeps the link busy ends at about S seconds,
and a slower one later. With --shared, S is the length of the run.

Fast links. A case has at most 65536 acknowledgements, 8 s at 100 Mbit/s. With --aggregate K a packet has K segments and
takes K chances, so a case reaches K times as far. --mss, --queue, --mark, --lag and --losses stay in segments: a packet
has K times --mss bytes, queue, mark and lag are divided by K and rounded, and a packet is lost if one of its segments
is. docs/compare.md shows what changes.

Limits. A scenario that one run doesn't accept (too many cases, programs, bytes or acknowledgements for the mode of
--for) is refused with its size. --whole writes it all the same, for `ccp over`, which splits it. --dry-run prints the
size in place of the scenario.

Cautions. Where docs/fidelity.md says that figures can't be trusted, as on a trace with gaps, or of the built-in CUBIC
with losses by chance, a line on standard error says so.

Beside what `ccp` reads, each case has the members `sender`, `loss`, and where they mean something `rate` (the share of
packets lost by chance), `seed`, `aggregate`, and of --set `set_NAME`. `ccp` ignores them; `ccp metrics` shows them as
columns.

Exit status: 0; 1 where a file is refused or a limit is passed; 2 where an argument is wrong."""
from __future__ import annotations

import argparse
import itertools
import re
import sys
from dataclasses import dataclass, field, replace
from pathlib import Path
from typing import Any, Dict, Iterator, List, Sequence, Tuple

from . import aggregation, cautions, limits
from .arguments import Parse, Parser, deprecated, group_of, is_name, list_of, named_file, ranges, shown, warn, whole
from .errors import CcpError, UsageError
from .limits import CASES, SPLIT
from .losses import Loss, loss
from .queues import Queue, queues, queues_ms
from .scenario_files import Scenario, read_scenario, scenario_of, scenario_text, write_scenario
from .senders import LIKE_LINUX, Sender, add_senders, add_set, resolved, with_settings
from .tables import LIMITS, MODES
from .traces import Trace, needed_times, read_trace, trace_text

__all__ = ["Grid", "make", "read_scenario", "scenario_of", "scenario_text", "write_scenario"]

LONGEST_NAME = LIMITS["scene_name_bytes"]
MIDDLE = ".."


# ---- parsers of values


def thousandths(text: str) -> int | None:
    """The thousandths of a number with at most three decimals, or None."""
    found = re.fullmatch(r"([0-9]{1,12})(?:\.([0-9]{1,3}))?", text)
    return 1000 * int(found.group(1)) + int((found.group(2) or "0").ljust(3, "0")) if found else None


def milliseconds(least_us: int, most_us: int) -> Parse[int]:
    """A parser of milliseconds, which may have a fraction, as microseconds."""

    def parse(text: str) -> int:
        value = thousandths(text)
        if value is None:
            raise argparse.ArgumentTypeError("%s isn't a number of ms with at most three decimals" % shown(text))
        if not least_us <= value <= most_us:
            raise argparse.ArgumentTypeError("%s ms isn't from %g to %g ms" % (text, least_us / 1000, most_us / 1000))
        return value

    return parse


def seconds(text: str) -> int:
    """A parser of seconds, as microseconds."""
    value = thousandths(text)
    if not value:
        raise argparse.ArgumentTypeError(
            "%s isn't a number of seconds above 0 with at most three decimals" % shown(text)
        )
    return 1000 * value


def mark(text: str) -> int | None:
    """A parser of a number of waiting packets, or none."""
    return None if text == "none" else whole(1, LIMITS["mark"])(text)


def trace(text: str) -> Tuple[str | None, str]:
    """The name of a trace, or None, and its file. A file whose name has a = is taken as it stands."""
    if "=" not in text or Path(text).exists():
        return None, text
    return named_file(text)


@dataclass(frozen=True)
class Conditions:
    """What a link has of its own, where the values of the grid don't count: each is None where they do. Times are in
    microseconds."""

    queue: Queue | None = None
    delay_us: int | None = None
    loss: Loss | None = None
    mark: int | None = None
    timeout_us: int | None = None
    mss: int | None = None


@dataclass(frozen=True)
class LinkWord:
    """A word of --link: its text, the name of its trace (None where it is the file's), the file, and the conditions."""

    text: str
    name: str | None
    path: str
    own: Conditions


def link(text: str) -> LinkWord:
    """A parser of --link: [NAME=]TRACE-FILE:KEY=VALUE,.."""
    found = None if Path(text).exists() else re.fullmatch(r"(.+?)(?::([a-z-]+=.*))?", text)
    name, path = trace(found[1] if found else text)
    values: Dict[str, Any] = {}
    for part in (found[2] or "").split(",") if found else []:
        key, _, value = part.partition("=")
        if part and (key not in LINK_VALUES or not value):
            keys = ", ".join(LINK_VALUES)
            raise argparse.ArgumentTypeError(
                "%s: %s: KEY=VALUE is expected, where KEY is %s" % (text, shown(part), keys)
            )
        if key in LINK_VALUES:
            member, parse = LINK_VALUES[key]
            if member in values:
                raise argparse.ArgumentTypeError("%s: %s is there twice" % (text, key))
            values[member] = parse(value)
    return LinkWord(text, name, path, Conditions(**values))


def one_queue(text: str) -> Queue:
    """A parser of one queue: packets, as 100, products, as 1bdp, or milliseconds, as 50ms."""
    found = queues_ms(text[: -len("ms")]) if re.fullmatch(r"[0-9.]+ms", text) else queues(text)
    if len(found) != 1:
        raise argparse.ArgumentTypeError("%s: a link has one queue" % shown(text))
    return found[0]


# what a link may have of its own: the member of Conditions and its parser, by the key of --link
LINK_VALUES: Dict[str, Tuple[str, Parse[Any]]] = {
    "delay": ("delay_us", milliseconds(0, LIMITS["delay_us"])),
    "queue": ("queue", one_queue),
    "losses": ("loss", loss),
    "mark": ("mark", mark),
    "timeout": ("timeout_us", milliseconds(1, LIMITS["timeout_us"])),
    "mss": ("mss", whole(1, LIMITS["segment_bytes"])),
}


@dataclass(frozen=True)
class Steps:
    """The programs of a rollout's flow, in order. As a sender of the grid its label is their names."""

    steps: Tuple[str, ...]

    @property
    def label(self) -> str:
        """The names of the programs, with dots between."""
        return ".".join(self.steps)


def steps(text: str) -> Steps:
    """A parser of the steps of a flow: names of programs with + between."""
    names = text.split("+")
    if not all(map(is_name, names)) or len(names) > LIMITS["steps"]:
        raise argparse.ArgumentTypeError(
            "%s isn't 1 to %d names of programs with + between" % (shown(text), LIMITS["steps"])
        )
    return Steps(tuple(names))


def start(text: str) -> int:
    """A parser of a flow's start in seconds, as microseconds."""
    value = thousandths(text)
    if value is None or 1000 * value > LIMITS["start_us"]:
        most = LIMITS["start_us"] // 10**6
        what = "%s isn't a number of seconds from 0 to %d with at most three decimals"
        raise argparse.ArgumentTypeError(what % (shown(text), most))
    return 1000 * value


def shared(text: str) -> Dict[str, Any]:
    """A parser of the member `shared`: TRACE:QUEUE:QUANTUM-MS[:ROUNDS]."""
    parts = text.split(":")
    if not 3 <= len(parts) <= 4:
        raise argparse.ArgumentTypeError("%s isn't of the form TRACE:QUEUE:QUANTUM-MS[:ROUNDS]" % shown(text))
    made: Dict[str, Any] = {"trace": parts[0], "queue": whole(1, LIMITS["queue"])(parts[1])}
    made["quantum_us"] = milliseconds(1, LIMITS["quantum_us"])(parts[2])
    if len(parts) == 4:
        made["rounds"] = whole(1, LIMITS["rounds"])(parts[3])
    return made


# ---- names


def shortened(text: str, room: int) -> str:
    """A text of at most `room` bytes, with its beginning and its end: a trace's direction is at its end."""
    if len(text) <= room:
        return text
    end = min(room - len(MIDDLE) - 1, max(5, (room - len(MIDDLE)) // 2))
    return text[: room - len(MIDDLE) - end] + MIDDLE + text[-end:]


def apart(text: str, room: int, taken: Sequence[str] | Dict[str, Any]) -> str:
    """A text of at most `room` bytes that isn't in `taken`: if need be it ends with a number."""
    name, number = shortened(text, room), 2
    while name in taken:
        ending = "-%d" % number
        name, number = shortened(text, room - len(ending)) + ending, number + 1
    return name


def trace_name(path: str, taken: Dict[str, Any]) -> str:
    """The name of a trace whose user gave it none, by its file."""
    base = "trace" if path == "-" else Path(path).name
    for ending in (".gz", ".xz", ".trace", ".txt"):
        base = base.removesuffix(ending) or base
    return apart(re.sub(r"[^A-Za-z0-9_.-]", "-", base) or "trace", LONGEST_NAME, taken)


def milliseconds_text(us: int) -> str:
    """Microseconds as milliseconds, without zeros at the end."""
    return ("%d.%03d" % divmod(us, 1000)).rstrip("0").rstrip(".")


def short_names(traces: Sequence[str], room: int) -> Dict[str, str]:
    """A name for each trace of at most `room` bytes, or its own if shorter names would be equal."""
    short: Dict[str, str] = {}
    for name in dict.fromkeys(traces):
        short[name] = apart(name, room, list(short.values())) if room >= 8 else name
    return short


def named(traces: Sequence[str], endings: Sequence[str]) -> List[str]:
    """A name for each case, from its trace and its ending; no two are equal. Traces are shortened as far as the longest
    ending needs it, and the same in all cases."""
    short = short_names(traces, LONGEST_NAME - max(map(len, endings), default=0))
    names: Dict[str, bool] = {}
    for name, ending in zip(traces, endings):
        names[apart(short[name] + ending, LONGEST_NAME, names)] = True
    return list(names)


# ---- the grid


@dataclass(frozen=True)
class Point:
    """A point of the grid: what a case is made of. `at` is the number of the loss in the grid's list."""

    trace: str
    sender: Sender | Steps
    queue: Queue
    delay_us: int
    loss: Loss
    at: int
    seed: int | None
    mark: int | None
    cwnd: int | None


@dataclass
class Grid:
    """What a scenario is made of; the defaults are those of the options. Times are in microseconds but for `cut_ms`.

    `traces` are pairs of a name (or None, then by the file) and a file, and `conditions` what each of them has of its
    own, by its number. `seconds_us` is the length in place of `acks`.
    `shared` is the bottleneck of all flows, as the member of a scenario, and `start_us` says when they start, as
    starts_of reads it; `steps` are those of a rollout. A packet has `aggregate` segments of `mss` bytes, and takes as
    many chances. With `is_whole` the limits are those of each case alone.

    A draft of the scenario sets `own`, the conditions by the names of traces; `recorded`, the times of each trace up to
    the cut; `links`, the traces that its cases
    run over, before they are cut to what the length needs; and `notes`, what was done to them. `files` keeps what was
    read, by path."""

    traces: List[Tuple[str | None, str]]
    senders: List[Sender] = field(default_factory=lambda: list(LIKE_LINUX.values()))
    portus: List[Tuple[str, str]] = field(default_factory=list)
    queue: List[Queue] = field(default_factory=lambda: [Queue(100)])
    delay_us: List[int] = field(default_factory=lambda: [20_000])
    losses: List[Loss] = field(default_factory=lambda: [Loss("none")])
    seeds: List[int] = field(default_factory=lambda: [1])
    mark: List[int | None] = field(default_factory=lambda: [None])
    mss: int = 1448
    acks: int = 4096
    seconds_us: int | None = None
    timeout_us: int = 1_000_000
    slots: int = 4
    lag: int = 0
    cut_ms: int | None = None
    mode: str = "campaign"
    shared: Dict[str, Any] | None = None
    steps: List[Steps] | None = None
    cwnd: List[int] | None = None
    start_us: List[int] | None = None
    aggregate: int = 1
    is_quiet: bool = False
    is_whole: bool = False
    conditions: Dict[int, Conditions] = field(default_factory=dict)
    own: Dict[str, Conditions] = field(default_factory=dict)
    recorded: Dict[str, List[int]] = field(default_factory=dict)
    links: Dict[str, Trace] = field(default_factory=dict)
    notes: List[str] = field(default_factory=list)
    files: Dict[str, List[int]] = field(default_factory=dict)

    def __post_init__(self) -> None:
        most, mss = LIMITS["segment_bytes"], max([self.mss, *(one.mss or 0 for one in self.conditions.values())])
        if mss * self.aggregate > most:
            text = "--aggregate %d: packets of %d bytes; at most %d are accepted, so at most --aggregate %d"
            raise UsageError(text % (self.aggregate, mss * self.aggregate, most, most // mss))

    def changed(self, **changes: Any) -> Grid:
        """The same grid with other members, which says nothing, and reads no file again."""
        fresh: Dict[str, Any] = {"is_quiet": True, "own": {}, "recorded": {}, "links": {}, "notes": []}
        return replace(self, **{**fresh, **changes})

    def scenario(self) -> Scenario:
        """The scenario. A file that can't be read, and a limit of a case that is passed, is a CcpError."""
        made = self.draft()
        limits.refuse(self, made, is_of_mode=False)
        return made

    def draft(self) -> Scenario:
        """The scenario, which may pass limits. A trace is cut to what the length needs where the whole of it is too
        long for one run. A file that can't be read, and a length in which the link sends nothing, is a CcpError."""
        traces = self.read_traces()
        self.links = {name: Trace(times) for name, times in traces.items()}
        found, programs = resolved([] if self.steps else self.senders, self.portus)
        for name in [name for one in self.steps or [] for name in one.steps]:
            if name not in programs:
                raise CcpError("no --portus has the name %s" % name)
        made: Scenario = {"version": 1, "programs": programs}
        made["traces"] = {name: trace_text(times) for name, times in traces.items()}
        points = list(self.points(traces, self.steps or found))
        if self.shared:
            made["shared"] = with_length(self, traces, len(points))
        made["cases"] = self.cases(points)
        if self.start_us:
            for case, start_us in zip(made["cases"], starts_of(self.start_us, len(points))):
                case["start_us"] = start_us
        if limits.is_too_long(made, self.is_whole):
            self.cut_to_need(made)
        return made

    def cut_to_need(self, made: Scenario) -> None:
        """Leaves out of the scenario's traces what comes after the length that they are needed for."""
        for name, link in self.links.items():
            until_us = self.needed_us(made, name)
            kept = link.times if until_us is None else needed_times(link.times, until_us)
            if until_us is not None and len(kept) < len(link.times):
                made["traces"][name] = trace_text(kept)
                values = (name, kept[-1] / 1e3, link.times[-1] / 1e3, until_us / 1e6)
                if not self.ends_with_need:
                    text = "the trace %s: the first %g of its %g s are used: a flow that takes longer than %g s"
                    self.notes.append(text % values + " meets them again")

    @property
    def ends_with_need(self) -> bool:
        """Whether nothing is shown of what comes after the length that traces are needed for."""
        return bool(self.shared)

    def needed_us(self, made: Scenario, _name: str) -> int | None:
        """Up to which time a trace is needed, in microseconds; None where only the acknowledgements are known."""
        if self.shared:
            return int(made["shared"]["rounds"] * made["shared"]["quantum_us"])
        return self.seconds_us

    def read_traces(self) -> Dict[str, List[int]]:
        """The times of the packets of each trace by its name."""
        traces: Dict[str, List[int]] = {}
        paths = [path for _, path in self.traces]
        for at, (name, path) in enumerate(self.traces):
            if name in traces:
                raise CcpError("two traces have the name %s" % name)
            if path in paths[:at] and not self.is_quiet and not self.conditions:
                warn("the trace %s is given more than once" % path)
            name = name or trace_name(path, traces)
            self.own[name] = self.conditions.get(at, Conditions())
            self.recorded[name] = self.read_times(path)
            traces[name] = self.aggregated(name, path)
        return traces

    def aggregated(self, name: str, path: str) -> List[int]:
        """The times of the packets of a trace."""
        times, count = self.recorded[name], self.aggregate
        made = aggregation.aggregated(times, count, path)
        if made.left_over:
            what = "the last %d of the %d chances of the trace %s" % (made.left_over, len(times), name)
            share = 100 * made.left_over / len(times)
            self.notes.append("--aggregate %d: %s go with the packet before: %.2g %% less" % (count, what, share))
        return made.times

    def read_times(self, path: str) -> List[int]:
        """The times of a trace file, up to the cut where there is one."""
        cut = self.cut_ms
        if path not in self.files:
            self.files[path] = read_trace(path, None if cut else LIMITS["trace_ms"])
        times = self.files[path]
        if not cut or times[-1] <= cut:
            return times
        kept = [time for time in times if time <= cut]
        if not kept or not kept[-1]:
            raise CcpError("%s: there is no time from 1 to %d ms, so --cut %d leaves nothing" % (path, cut, cut))
        if not self.is_quiet:
            print("ccp scenario: %s: cut at %d of its %d ms" % (path, kept[-1], times[-1]), file=sys.stderr)
        return kept

    def points(self, traces: Dict[str, Any], found: Sequence[Sender | Steps]) -> Iterator[Point]:
        """The points of the grid in order."""
        for name in traces:
            yield from self.points_of(name, self.own[name], found)

    def points_of(self, name: str, own: Conditions, found: Sequence[Sender | Steps]) -> Iterator[Point]:
        """The points of a trace."""
        no_window: Sequence[int | None] = [None]
        losses = self.losses if own.loss is None else [own.loss]
        draws = [(at, one, seed) for at, one in enumerate(losses) for seed in self.seeds_of(one)]
        lengths = [own.queue] if own.queue else self.queue
        marks: Sequence[int | None] = [own.mark] if own.mark else self.mark
        delays = self.delay_us if own.delay_us is None else [own.delay_us]
        axes = itertools.product(found, lengths, delays, draws, marks, self.cwnd or no_window)
        for by, queue, delay_us, (at, one, seed), mark_at, cwnd in axes:
            yield Point(name, by, queue, delay_us, one, at, seed, mark_at, cwnd)

    def timeout_of(self, name: str) -> int:
        """The timeout on a trace, in microseconds."""
        return self.own[name].timeout_us or self.timeout_us

    def seeds_of(self, one: Loss) -> Sequence[int | None]:
        """The seeds that a loss is drawn with: None alone where nothing is drawn."""
        if not one.chances:
            return [None]
        return self.seeds if one.seed is None else [one.seed]

    def ending(self, point: Point) -> str:
        """What a case's name has after its trace: its sender, and each value that differs between cases."""
        shown_values = [
            (len(self.queue) > 1, "q" + point.queue.label),
            (len(self.delay_us) > 1, "d" + milliseconds_text(point.delay_us)),
            (len(self.losses) > 1, "l%d" % point.at),
            (len(self.seeds) > 1 and point.seed is not None and point.loss.seed is None, "s%s" % point.seed),
            (len(self.mark) > 1, "m%d" % (point.mark or 0)),
            (len(self.cwnd or []) > 1, "w%s" % point.cwnd),
        ]
        return "-".join(["", point.sender.label] + [text for is_shown, text in shown_values if is_shown])

    def cases(self, points: Sequence[Point]) -> List[Dict[str, Any]]:
        """The cases of the points, each with a name of its own."""
        names = named([point.trace for point in points], [self.ending(point) for point in points])
        pairs = dict.fromkeys((point.trace, point.delay_us) for point in points)
        counts = {(name, delay_us): self.acks_of(self.links[name], name, delay_us) for name, delay_us in pairs}
        return [self.case(one, name, counts[one.trace, one.delay_us]) for one, name in zip(points, names)]

    def acks_of(self, link: Trace, name: str, delay_us: int) -> int:
        """The acknowledgements of a case: those asked for, or those that a busy link gives in the seconds asked for.
        They may be more than a case can have."""
        if not self.seconds_us or self.shared:
            return self.acks
        count = self.acks_in(link, self.seconds_us, delay_us)
        if not count:
            values = (name, self.seconds_us / 1e6, milliseconds_text(delay_us))
            raise CcpError("the trace %s has no chance in %g s less the delay of %s ms" % values)
        return count

    def acks_in(self, link: Trace, length_us: int, delay_us: int) -> int:
        """The acknowledgements of a case that a busy link gives in a time."""
        return link.chances(length_us - delay_us)

    def case(self, point: Point, name: str, acks: int) -> Dict[str, Any]:
        """The case of a point. What the grid has in segments is counted in packets here."""
        count = self.aggregate
        queue = point.queue.on(self.links[point.trace], point.delay_us, count)
        mss = self.own[point.trace].mss or self.mss
        made: Dict[str, Any] = {"name": name, "trace": point.trace, "mss": mss * count, "queue": queue}
        made.update(delay_us=point.delay_us, timeout_us=self.timeout_of(point.trace), acks=acks)
        if isinstance(point.sender, Steps):
            made.update(cwnd=point.cwnd, steps=list(point.sender.steps))
        else:
            made = {"name": name, "agent": point.sender.agent, **made, "slots": self.slots}
            made["lag"] = aggregation.packets_of(self.lag, count)
            programs = (("ss", point.sender.slow), ("ca", point.sender.avoid))
            made.update({key: value for key, value in programs if value})
            made.update({"set_" + name: value for name, value in point.sender.numbers})
        # a case of more acknowledgements is refused
        lost = aggregation.lost_packets(point.loss.drawn(point.seed, 2 * min(acks, LIMITS["acks"]) * count), count)
        if lost:
            made["losses"] = lost
        mark_at = point.mark and aggregation.packets_of(point.mark, count)
        beside: Dict[str, Any] = {"mark": mark_at, "sender": point.sender.label, "loss": point.loss.label}
        beside.update(rate=aggregation.share_lost(point.loss, count), seed=point.seed)
        beside["aggregate"] = count if count > 1 else None
        made.update({key: value for key, value in beside.items() if value is not None})
        return made


def starts_of(given: Sequence[int], flows: int) -> List[int]:
    """When each flow starts, in microseconds: a value for each in order, or one, the time from a start to the next."""
    starts = [number * given[0] for number in range(flows)] if len(given) == 1 else list(given)
    if len(starts) != flows:
        text = "--start: %d values for %d flows: one for each in order, or one alone, the time between starts"
        raise CcpError(text % (len(starts), flows))
    if max(starts, default=0) > LIMITS["start_us"]:
        raise CcpError("--start: the last of %d flows would start after %d s" % (flows, LIMITS["start_us"] // 10**6))
    return starts


def most_acks(link: Trace, span_us: int, timeout_us: int) -> int:
    """One acknowledgement more than a case can have up to a time: one a chance, and one a timeout."""
    return link.chances(span_us) + span_us // timeout_us + 1


def with_length(grid: Grid, traces: Dict[str, List[int]], flows: int) -> Dict[str, Any]:
    """The member `shared`, with its rounds; where seconds are given, each flow may have all that the link serves."""
    link = dict(grid.shared or {})
    link["queue"] = aggregation.packets_of(link["queue"], grid.aggregate)
    if link["trace"] not in traces:
        raise CcpError("--shared: there is no trace %s; there are %s" % (link["trace"], ", ".join(traces)))
    if grid.seconds_us:
        link.setdefault("rounds", -(-grid.seconds_us // link["quantum_us"]))
        until = link["rounds"] * link["quantum_us"]
        served = Trace(traces[link["trace"]]).chances(until)
        grid.acks = min(served, LIMITS["acks"], LIMITS["acks_in_all"] // max(1, flows))
    return link


# ---- the size


def size_text(mode: str, made: Scenario, size: int) -> str:
    """What --dry-run prints."""
    acks = sum(case["acks"] for case in made["cases"])
    lines = [
        "cases=%d of at most %d" % (len(made["cases"]), CASES[mode]),
        "bytes=%d of at most %d" % (size, LIMITS["input_bytes"]),
        "acknowledgements=%d%s" % (acks, "" if mode == "campaign" else " of at most %d" % LIMITS["acks_in_all"]),
    ]
    for name, text in made["traces"].items():
        length = int(text.rsplit("\n", 2)[-2]) / 1e3
        values = (name, text.count("\n"), length, limits.bytes_of(made, [name]))
        lines.append("trace %s chances=%d seconds=%g bytes=%d" % values)
    return "\n".join(lines) + "\n"


# ---- arguments


def add_grid(parser: argparse.ArgumentParser) -> None:
    """Adds the trace files, the senders and the options of the grid, which `grid_of` reads, as for `ccp compare`."""
    what = "a recording; there is a case or more for each"
    parser.add_argument("traces", nargs="*", type=trace, metavar="[NAME=]TRACE-FILE", help=what)
    add_senders(group_of(parser, "senders"))
    add_set(group_of(parser, "senders"))
    add_flows(group_of(parser, "senders"))
    add_link(group_of(parser, "link"))
    what = "a recording with conditions of its own: %s (again for another one)" % ", ".join(LINK_VALUES)
    form = "[NAME=]TRACE-FILE:KEY=VALUE,.."
    group_of(parser, "link").add_argument("--link", type=link, action="append", default=[], metavar=form, help=what)
    add_lengths(group_of(parser, "length"))


def add_link(group: argparse._ArgumentGroup) -> None:
    """Adds the lists of queues, delays, losses and marks of the grid."""
    delay, lists, add = LIMITS["delay_us"], "LIST", group.add_argument
    queue = group.add_mutually_exclusive_group()
    what = "packets that may wait at the bottleneck, 1 to 4096, or a product of bandwidth and delay, as 100,1bdp (100)"
    queue.add_argument("--queue", type=queues, metavar=lists, help=what)
    what = "the same in milliseconds at the trace's mean rate"
    queue.add_argument("--queue-ms", type=queues_ms, metavar=lists, help=what)
    delays = ranges(milliseconds(0, delay), milliseconds(1, delay))
    add(
        "--delay-ms",
        type=delays,
        metavar=lists,
        help="from a packet's chance to its acknowledgement, 0 to 10000 ms (20)",
    )
    what = "none, 17+40+900, rate:P[:SEED] or gilbert:P:R[:SEED] (none)"
    add("--losses", type=list_of(loss), metavar=lists, help=what)
    add(
        "--seeds", type=ranges(whole(0, 2**32 - 1)), metavar=lists, help="seeds of the losses by chance, as 1..20 (1)"
    )
    what = "waiting packets from which on a packet is marked, 1 to 4096, or none (none)"
    add("--mark", type=ranges(mark, whole(1, LIMITS["mark"])), metavar=lists, help=what)


def add_flows(group: argparse._ArgumentGroup) -> None:
    """Adds what the flows of all cases of the grid have in common."""
    add = group.add_argument
    add("--mss", type=whole(1, LIMITS["segment_bytes"]), metavar="BYTES", help="bytes of a segment (1448)")
    what = "how long a sender waits if no acknowledgement can arrive, up to 60000 ms (1000)"
    add("--timeout-ms", type=milliseconds(1, LIMITS["timeout_us"]), metavar="MS", help=what)
    add("--slots", type=whole(1, LIMITS["slots"]), metavar="N", help="reports that may wait (4)")
    what = "acknowledgements that an answer takes in a campaign (0)"
    add("--lag", type=whole(0, LIMITS["lag"]), metavar="N", help=what)


def add_lengths(group: argparse._ArgumentGroup) -> None:
    """Adds how long a case is, how much of a trace it has, and how large a packet is."""
    add = group.add_argument
    length = group.add_mutually_exclusive_group()
    what = "acknowledgements of a case, at most 65536 (4096); --aggregate reaches further"
    length.add_argument("--acks", type=whole(0, LIMITS["acks"]), metavar="N", help=what)
    length.add_argument("--seconds", type=seconds, metavar="S", help="the length in place of acknowledgements")
    add("--cut", type=whole(1, LIMITS["trace_ms"]), metavar="MS", help="only the times of each trace up to this one")
    what = "segments of a packet, which takes as many chances: for fast links (1)"
    add("--aggregate", type=whole(1, LIMITS["segment_bytes"]), metavar="K", help=what)


def add_arguments(parser: argparse.ArgumentParser) -> None:
    """Adds the arguments of `ccp scenario`."""
    add_grid(parser)
    add = parser.add_argument
    what = "of rollout: the programs of a flow in order, as slow+grow; a case for each"
    add("--steps", type=list_of(steps), metavar="LIST", help=what)
    windows = ranges(whole(0, 2**32 - 1))
    add("--cwnd", type=windows, metavar="LIST", help="of rollout: the first window in bytes (10 segments)")
    what = "the mode that the limits are checked for (campaign)"
    add("--for", dest="mode", choices=CASES, default="campaign", help=what)
    form = "TRACE:QUEUE:QUANTUM-MS[:ROUNDS]"
    add("--shared", type=shared, metavar=form, help="the bottleneck of all flows, for the mode shared")
    what = "seconds at which the flows of --shared start, as 0,5,10; or one, the time between their starts (all at 0)"
    add("--start", type=list_of(start), metavar="S", help=what)
    add("--whole", action="store_true", help="no limits of one run: for `ccp over`")
    what = "the numbers of cases, bytes and acknowledgements in place of the scenario"
    add("--dry-run", action="store_true", help=what)
    deprecated(parser, "--agents", "--senders")
    deprecated(parser, "--program", "--portus")


# the members of Grid that have another name than their option
MEMBERS = {
    "delay_ms": "delay_us",
    "seconds": "seconds_us",
    "start": "start_us",
    "timeout_ms": "timeout_us",
    "cut": "cut_ms",
    "quiet": "is_quiet",
    "whole": "is_whole",
}


def grid_of(arguments: argparse.Namespace) -> Grid:
    """The grid that arguments ask for; what doesn't go together is a UsageError."""
    set_numbers(arguments)
    words: List[LinkWord] = getattr(arguments, "link", [])
    if not arguments.traces and not words:
        raise UsageError("the following arguments are required: [NAME=]TRACE-FILE")
    values = {MEMBERS.get(name, name): value for name, value in vars(arguments).items() if value is not None}
    values["queue"] = values.get("queue") or values.get("queue_ms") or [Queue(100)]
    first = len(arguments.traces)
    values["traces"] = [*arguments.traces, *((one.name, one.path) for one in words)]
    values["conditions"] = {first + at: one.own for at, one in enumerate(words)}
    grid = Grid(**{name: value for name, value in values.items() if name in Grid.__dataclass_fields__})
    check_mode(grid, arguments)
    losses = [*grid.losses, *(one.own.loss for one in words if one.own.loss)]
    if arguments.seeds and not any(one.chances and one.seed is None for one in losses):
        forms = "--losses rate:P or gilbert:P:R"
        raise UsageError("--seeds needs losses by chance without a seed of their own: %s" % forms)
    if grid.shared and "rounds" not in grid.shared and not grid.seconds_us:
        raise UsageError("--shared needs ROUNDS, or --seconds")
    if MODES[grid.mode].kind == "rollout":
        grid.cwnd = grid.cwnd or [10 * grid.mss]
    return grid


def set_numbers(arguments: argparse.Namespace) -> None:
    """Makes the senders that --set asks for of those of --senders, once."""
    settings, arguments.set = getattr(arguments, "set", []), []
    if settings:
        found = with_settings(arguments.senders or list(LIKE_LINUX.values()), arguments.portus, settings)
        arguments.senders = [one for some in found for one in some]


def check_mode(grid: Grid, arguments: argparse.Namespace) -> None:
    """Refuses options that aren't of the mode."""
    kind = MODES[grid.mode].kind
    if kind == "rollout":
        if not grid.steps or arguments.senders:
            raise UsageError("%s needs --steps, and has no --senders" % grid.mode)
    elif grid.steps or grid.cwnd:
        raise UsageError("--steps and --cwnd are of --for rollout")
    if (kind == "shared") != bool(grid.shared):
        raise UsageError("--for shared and --shared TRACE:QUEUE:QUANTUM-MS[:ROUNDS] go together")
    if grid.start_us and not grid.shared:
        raise UsageError("--start is of flows on one link: it needs --shared")
    if getattr(arguments, "whole", False) and grid.mode not in SPLIT:
        raise UsageError("--whole is of --for campaign, timeline and acks: a run of %s can't be split" % grid.mode)


def link_values(arguments: argparse.Namespace, grid: Grid) -> Dict[str, Any]:
    """The options of add_link as a TOML file has them; None stands for one that isn't given."""
    losses = [one.label + (":%d" % one.seed if one.seed is not None else "") for one in arguments.losses or []]
    return {
        "queue-ms" if arguments.queue_ms else "queue": [queue.text() for queue in grid.queue],
        "losses": losses,
        "seeds": arguments.seeds,
        "mark": arguments.mark and ["none" if at is None else at for at in arguments.mark],
        "delay-ms": arguments.delay_ms and [us / 1000 for us in arguments.delay_ms],
    }


def make(words: Sequence[str]) -> Scenario:
    """The scenario that `ccp scenario WORD..` prints. Its limits aren't checked."""
    parser = Parser(prog="ccp scenario")
    add_arguments(parser)
    return grid_of(parser.parse_args(list(words))).scenario()


def run(arguments: argparse.Namespace) -> int:
    """Prints the scenario, or its size."""
    grid = grid_of(arguments)
    made = grid.draft()
    text = scenario_text(made)
    if arguments.dry_run:
        sys.stdout.write(size_text(grid.mode, made, len(text)))
    limits.refuse(grid, made)
    if not grid.is_quiet:
        # which part of a run is measured isn't known here, so nothing is said of its length
        for note in [*grid.notes, *(one.line() for one in cautions.found(made, recorded=grid.recorded))]:
            warn(note)
    if not arguments.dry_run:
        sys.stdout.write(text)
    return 0
