"""Logs of links: those that Mahimahi's `mm-link --uplink-log` and Pantheon write, and acknowledgements of `ccp` in
their form.

    times_of_log(path)        the chances of the link, as the times of a trace
    measured_of_log(path)     throughput, delay and loss of the real sender
    log_text(case, ..)        a case of `ccp acks` as such a log

A log has an event a line, after lines that begin with `#`. Times are in milliseconds.

    TIME # BYTES              the link could send BYTES: a chance
    TIME + BYTES              a packet came to the link
    TIME - BYTES DELAY        a packet left it, DELAY milliseconds after it came
    TIME d PACKETS BYTES      packets were dropped

Pantheon's logs have fractions of milliseconds, and a last column with the number of the flow where several ran. Their
delay is that of a whole way through the tunnel; Mahimahi's is the time in the link's queue."""
from __future__ import annotations

import math
import re
from dataclasses import dataclass, field
from typing import Any, Dict, Iterable, Iterator, List, Mapping, Sequence, Tuple

from .errors import CcpError
from .files import PathLike, name_of
from .trace_files import read_text, recognised, without_mark

LOG = "a link log of Mahimahi or Pantheon"
BASE = re.compile(r"# base timestamp: ([0-9]+(?:\.[0-9]+)?)\s*")
TIME = re.compile(r"[0-9]{1,15}(\.[0-9]{1,9})?")


@dataclass(frozen=True)
class Event:
    """An event of a log: its time in milliseconds as the log has it, its sign, its bytes, and of `-` the delay in
    milliseconds. `flow` is 0 where the log has no number."""

    time: float
    sign: str
    bytes: int
    delay: float
    flow: int


@dataclass
class LinkLog:
    """A log: its events, and the time that counts as 0, which is that of the line `# base timestamp:`, else that of the
    first event. `is_tunnel` says that it is one of Pantheon's tunnel."""

    path: str
    base: float
    events: List[Event]
    is_tunnel: bool


@dataclass(frozen=True)
class Measured:
    """What a real sender had on a link, from its log. Throughput and loss are as Pantheon's analysis defines them.

    `seconds` is the time from the first packet that left the link to the last one, and `throughput_mbps` what left it
    in this time, with all headers. `utilization` is the share of the chances' bytes in this time that were used, and
    None where the log has no chance. `loss_rate` is the share of the bytes that came to the link and didn't leave it;
    what was in the queue at the end is among it. Delays are in milliseconds, percentiles by nearest rank.
    `delay_is_queueing` says that they are times in the link's queue (Mahimahi's logs); else they are those of the
    whole way through Pantheon's tunnel."""

    path: str
    flow: int | None
    packets: int
    seconds: float
    throughput_mbps: float
    utilization: float | None
    loss_rate: float
    delay_mean_ms: float
    delay_p50_ms: float
    delay_p95_ms: float
    delay_p99_ms: float
    delay_is_queueing: bool

    def figures(self) -> Dict[str, float | None]:
        """The figures by the names that they have in docs/metrics.md; delays that aren't the queue's are left out."""
        made: Dict[str, float | None] = {
            "packets": self.packets,
            "end_s": self.seconds,
            "throughput_mbps": self.throughput_mbps,
            "utilization": self.utilization,
            "loss_rate": self.loss_rate,
        }
        if self.delay_is_queueing:
            made["queueing_mean_ms"] = self.delay_mean_ms
            made["queueing_p50_ms"] = self.delay_p50_ms
            made["queueing_p95_ms"] = self.delay_p95_ms
            made["queueing_p99_ms"] = self.delay_p99_ms
        return made


# ---- reading


def read_log(path: PathLike) -> LinkLog:
    """The log in a file, which may be packed by gzip, xz or bzip2. What is no log is a CcpError, which says what it
    is."""
    text = without_mark(read_text(path, LOG))
    place = name_of(path)
    try:
        return log_of(text, place)
    except CcpError:
        what = recognised(text)
        if what and not what.startswith(LOG):
            raise CcpError("%s: %s is expected, and it is %s" % (place, LOG, what)) from None
        raise


def log_of(text: str, place: str = "log") -> LinkLog:
    """The log of a text; `place` is named where a line is refused."""
    base: float | None = None
    events = []
    has_mahimahi = has_init = False
    for number, line in enumerate(text.split("\n"), 1):
        line = line.strip()
        if line.startswith("#"):
            found = BASE.fullmatch(line)
            base = float(found.group(1)) if found else base
            has_mahimahi = has_mahimahi or bool(found) or "mm-link" in line
            has_init = has_init or line.startswith("# init timestamp:")
        elif line:
            events.append(event_of(line, "%s:%d" % (place, number)))
    if not events:
        raise CcpError("%s: there is no event of a link in it" % place)
    first = min(event.time for event in events)
    return LinkLog(place, first if base is None else base, events, has_init and not has_mahimahi)


def event_of(line: str, place: str) -> Event:
    """The event of a line."""
    words = line.split()
    sign = words[1] if len(words) > 1 else ""
    if not TIME.fullmatch(words[0]) or sign not in ("#", "+", "-", "d"):
        raise CcpError("%s: no event of a link log, which is TIME and #, +, - or d: %s" % (place, line[:60]))
    if sign == "d":
        return Event(float(words[0]), sign, 0, 0.0, 0)
    if len(words) < 3 or not re.fullmatch(r"[0-9]{1,12}", words[2]):
        raise CcpError("%s: no whole number of bytes after %s: %s" % (place, sign, line[:60]))
    if sign != "-":
        return Event(float(words[0]), sign, int(words[2]), 0.0, flow_of(words[3:], place))
    if len(words) < 4 or not TIME.fullmatch(words[3]):
        raise CcpError("%s: a packet that leaves has bytes and a delay in milliseconds: %s" % (place, line[:60]))
    return Event(float(words[0]), sign, int(words[2]), float(words[3]), flow_of(words[4:], place))


def flow_of(words: Sequence[str], place: str) -> int:
    """The number of a flow at a line's end; 0 where there is none."""
    if not words:
        return 0
    if len(words) > 1 or not re.fullmatch(r"[0-9]{1,9}", words[0]):
        raise CcpError("%s: the number of a flow is expected at the end, not %s" % (place, " ".join(words)[:40]))
    return int(words[0])


def times_of_log(path: PathLike) -> List[int]:
    """The chances of a log as the times of a trace, in whole milliseconds from the log's beginning on."""
    log = read_log(path)
    times = times_of(log)
    if not times:
        raise CcpError(
            "%s: it has no chance of the link, which is a line TIME # BYTES; a log of a tunnel has none" % log.path
        )
    if times[0] < 0:
        raise CcpError("%s: a chance comes %d ms before the time of `# base timestamp:`" % (log.path, -times[0]))
    return times


def times_of(log: LinkLog) -> List[int]:
    """The chances of a log, in whole milliseconds from its beginning on."""
    return sorted(math.floor(event.time - log.base) for event in log.events if event.sign == "#")


# ---- what was measured


def measured_of_log(path: PathLike, *, flow: int | None = None, until_s: float | None = None) -> Measured:
    """What the sender of a log had: of one flow where `flow` is given, else of all; and only up to `until_s` seconds
    of the log. A log in which no packet leaves the link, or no two of this flow, is a CcpError."""
    return measured_of(read_log(path), flow=flow, until_s=until_s)


def measured_of(log: LinkLog, *, flow: int | None = None, until_s: float | None = None) -> Measured:
    """What the sender of a log had; see measured_of_log."""
    end = math.inf if until_s is None else log.base + 1000 * until_s
    events = [event for event in log.events if event.time <= end]
    own = [event for event in events if flow is None or event.flow == flow]
    left = [event for event in own if event.sign == "-"]
    if flow is not None and not any(event.sign in "+-" for event in own):
        known = sorted({event.flow for event in log.events if event.sign in "+-"})
        raise CcpError("%s: there is no flow %d; its flows are %s" % (log.path, flow, ", ".join(map(str, known))))
    first, last = min((event.time for event in left), default=0), max((event.time for event in left), default=0)
    if last <= first:
        raise CcpError("%s: no two packets leave the link at different times, so there is no throughput" % log.path)
    came = sum(event.bytes for event in own if event.sign == "+")
    sent = sum(event.bytes for event in left)
    could = sum(event.bytes for event in events if event.sign == "#" and first <= event.time <= last)
    delays = sorted(event.delay for event in left)
    return Measured(
        path=log.path,
        flow=flow,
        packets=len(left),
        seconds=(last - first) / 1000,
        throughput_mbps=8 * sent / (1000 * (last - first)),
        utilization=sent / could if could else None,
        loss_rate=max(0.0, 1 - sent / came) if came else 0.0,
        delay_mean_ms=math.fsum(delays) / len(delays),
        delay_p50_ms=nearest_rank(delays, 50),
        delay_p95_ms=nearest_rank(delays, 95),
        delay_p99_ms=nearest_rank(delays, 99),
        delay_is_queueing=not log.is_tunnel,
    )


def nearest_rank(ordered: Sequence[Any], percent: int) -> Any:
    """The percentile of a list in order by nearest rank: the least value such that at least that share of all values
    is at most it."""
    return ordered[max(0, -(-len(ordered) * percent // 100) - 1)]


# ---- writing


def log_text(case: Mapping[str, Any], acks: Iterable[Mapping[str, int]], times: Sequence[int]) -> str:
    """A case as a log of its link, from its acknowledgements (dicts by the names of the primitives) and its trace's
    times.

    Times are rounded down to milliseconds, and a delay is the difference of two such times. A chance sends one packet
    whatever its size, so it counts for the bytes of a packet. Packets that are in flight at the end aren't in the
    log, so what came and didn't leave is what was lost."""
    size, delay_us = case["mss"], case["delay_us"]
    sent, left, end = packets_of(acks, delay_us)
    events: List[Tuple[int, int, str]] = [(time, 0, "%d + %d" % (time, size)) for time in sent]
    events += [(time, 2, "%d - %d %d" % (time, size, wait)) for time, wait in left]
    events += [(time, 1, "%d # %d" % (time, size)) for time in chances_until(times, end)]
    events.sort(key=lambda event: event[:2])
    head = [
        "# ccp acks: case %s [trace %s]" % (case["name"], case["trace"]),
        "# queue: droptail [packets=%d]" % case["queue"],
        "# init timestamp: 0",
        "# base timestamp: 0",
    ]
    return "\n".join(head + [line for _, _, line in events]) + "\n"


@dataclass
class Flight:
    """The packets that came to the link, as the acknowledgements say it: `times` has when each was sent."""

    times: List[int] = field(default_factory=list)
    gone: int = 0
    now: int = 0

    def add(self, ack: Mapping[str, int]) -> None:
        """Takes an acknowledgement. What is in flight after it, and what left the flight by it, were sent at the time
        of the acknowledgement before it."""
        self.gone += ack["packets_acked"] + ack["lost_pkts_sample"]
        self.times += [self.now // 1000] * (self.gone + ack["packets_in_flight"] - len(self.times))
        self.now = ack["now"]


def packets_of(acks: Iterable[Mapping[str, int]], delay_us: int) -> Tuple[List[int], List[Tuple[int, int]], int]:
    """When packets came to the link, when they left it with their waits there, and when the last acknowledgement
    came: in milliseconds."""
    flight = Flight()
    left = []
    for ack in acks:
        flight.add(ack)
        if ack["packets_acked"]:
            gone = (ack["now"] - delay_us) // 1000
            left.append((gone, gone - (ack["now"] - ack["rtt_sample_us"]) // 1000))
    return flight.times[: flight.gone], left, flight.now // 1000


def chances_until(times: Sequence[int], end: int) -> Iterator[int]:
    """The chances of a trace, which begins anew after its last time, up to an end."""
    lap = 0
    while True:
        for time in times:
            if lap + time > end:
                return
            yield lap + time
        lap += times[-1]
