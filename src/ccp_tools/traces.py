"""Shows, changes, converts and makes traces of links, in the form of Mahimahi's recordings.

    ccp trace info [--window MS] [--json] TRACE..        what a trace is like
    ccp trace cut [--from MS] --to MS TRACE > OUT        a part of it, whose times begin at 0
    ccp trace scale (--rate F | --mean MBIT | --time F) TRACE > OUT
    ccp trace from-csv [OPTION].. CSV > OUT              from packets, intervals or rates, or from `iperf -y C`
    ccp trace from-iperf3 JSON > OUT                     from `iperf3 --json`
    ccp trace from-pcap [--filter F] CAPTURE > OUT       from a packet capture, by tshark
    ccp trace from-mahimahi-log LOG > OUT                the link of a log that Mahimahi or Pantheon wrote
    ccp trace measured [--json] LOG..                    what the real sender of such a log had
    ccp trace to-mahimahi-log SCENARIO ACKS > LOG        what `ccp acks` printed, as such a log
    ccp trace lte | wifi | satellite | steps [OPTION].. > OUT

    ccp trace lte --seed 3 --seconds 60 --mean 8 > lte.trace
    ccp trace info lte.trace

A trace has a time in whole milliseconds a line, not falling; at each such time the link can send one packet, and
after the last time the trace begins anew. A file may be `-`, which is standard input, and may be packed by gzip, xz
or bzip2. Rates are in Mbit/s of packets of 1,500 bytes (--packet BYTES). `ccp trace COMMAND --help` shows the options
of a command.

lte, wifi, satellite and steps are synthetic. They are made from a seed by a simple model each, the same bytes on every
machine. They aren't recordings, and figures on them say nothing of a real network: docs/traces.md has the models."""
from __future__ import annotations

import argparse
import bisect
import dataclasses
import itertools
import json
import operator
import re
import sys
from typing import Any, Dict, Iterable, List, Sequence

from . import captures, link_logs, synthetic
from .arguments import deprecated, list_of, warn, whole
from .errors import CcpError, UsageError
from .files import PathLike, name_of
from .link_logs import Measured, measured_of_log, nearest_rank
from .scenario_files import read_scenario
from .tables import LIMITS
from .texts import acks_in
from .trace_files import read_text, recognised

__all__ = ["Measured", "Trace", "measured_of_log", "nearest_rank", "read_trace", "trace_text", "trace_times"]

LONGEST_MS: int = LIMITS["trace_ms"]
# Linux's least retransmission timeout: in a longer gap the timer of a real sender fires, and ccp has none
LONG_GAP_MS = 200
# the rate around which synthetic traces are made
MEAN_MBPS = 12


# a text of numbers of milliseconds alone
PLAIN = re.compile(r"(?:[0-9]{1,18}\n)+")


def is_rising(times: Sequence[int]) -> bool:
    """Whether no time is below the one before it."""
    return all(map(operator.le, times, itertools.islice(times, 1, None)))


class Trace:
    """A trace: its `times` in milliseconds, not falling, the last one above 0; after it the trace begins anew."""

    def __init__(self, times: Iterable[int]) -> None:
        self.times = list(times)
        if not self.times:
            raise CcpError("a trace has a time at least")
        if not is_rising(self.times):
            raise CcpError("the times of a trace don't fall")
        if not 0 < self.times[-1] <= LONGEST_MS or self.times[0] < 0:
            raise CcpError("the last time of a trace is from 1 to %d ms" % LONGEST_MS)

    @property
    def period_us(self) -> int:
        """The time in microseconds after which the trace begins anew."""
        return 1000 * self.times[-1]

    def chance_us(self, k: int) -> int:
        """When chance k, from 0, comes, in microseconds."""
        turns, at = divmod(k, len(self.times))
        return turns * self.period_us + 1000 * self.times[at]

    def chances(self, until_us: int) -> int:
        """How many chances come at or before a time in microseconds."""
        if until_us < 0:
            return 0
        turns, rest = divmod(until_us, self.period_us)
        return turns * len(self.times) + bisect.bisect_right(self.times, rest // 1000)


def trace_times(text: str, place: str = "trace", longest: int | None = LONGEST_MS) -> List[int]:
    """The times of a trace's text, in milliseconds. `place`, as a file's name, goes before the line's number where
    the text is refused by a CcpError. A time above `longest` is refused; None takes times of any length."""
    if text.startswith("\ufeff"):
        raise CcpError(
            "%s:1: a byte order mark comes first; save the file as UTF-8 without it: `tail -c +4 FILE > NEW`" % place
        )
    times: List[int] = []
    if PLAIN.fullmatch(text):
        # nearly every file: a tenth of the time of a look at each line, which finds what is wrong in it
        times = list(map(int, text.split()))
        if is_rising(times) and times[-1] and (longest is None or times[-1] <= longest):
            return times
        times = []
    for number, line in enumerate(text.split("\n"), 1):
        line = line.rstrip("\r").strip(" \t")
        if not line:
            continue
        if not re.fullmatch(r"[0-9]{1,18}", line):
            raise CcpError("%s:%d: no whole number of milliseconds: %s" % (place, number, line[:40]))
        time = int(line)
        if times and time < times[-1]:
            raise CcpError("%s:%d: %s comes after %d, and times don't fall" % (place, number, line, times[-1]))
        if longest is not None and time > longest:
            why = "a time is at most %d ms; cut the trace before it" % longest
            raise CcpError("%s:%d: %s ms: %s" % (place, number, line, why))
        times.append(time)
    if not times:
        raise CcpError("%s: there is no time in it" % place)
    if times[-1] == 0:
        raise CcpError("%s: its last time is 0, so it can't begin anew" % place)
    return times


def read_trace(path: PathLike, longest: int | None = LONGEST_MS) -> List[int]:
    """The times of a trace file in milliseconds; `-` is standard input, and gzip, xz and bzip2 are unpacked. A file
    that is no trace is a CcpError, which says what it is and what makes a trace of it. `longest` is as for
    trace_times."""
    text = read_text(path, "a trace")
    place = name_of(path)
    try:
        return trace_times(text, place, longest)
    except CcpError:
        what = recognised(text)
        if what:
            raise CcpError("%s: a trace is expected, and it is %s" % (place, what)) from None
        raise


def trace_text(times: Iterable[int]) -> str:
    """The text of a trace: a time a line."""
    return "".join("%d\n" % time for time in times)


def needed_times(times: Sequence[int], until_us: int) -> Sequence[int]:
    """The times of a trace that a run needs up to a time in microseconds: those up to it, and the next one.

    A link of these alone gives every acknowledgement up to then as the whole trace does: a packet's chance depends on
    the chances before it, and whether the queue is full on which packets have had theirs."""
    return times[: bisect.bisect_right(times, until_us // 1000) + 1]


def gaps_of(times: Sequence[int]) -> List[int]:
    """The milliseconds before each chance of a trace. The wait before the first one counts too, since the trace begins
    anew."""
    return [after - before for before, after in zip([0, *times], times)]


def gap_warning(name: str, times: Sequence[int]) -> str | None:
    """What figures on a trace with a gap longer than LONG_GAP_MS lack, or None where it has no such gap."""
    gaps = [gap for gap in gaps_of(times) if gap > LONG_GAP_MS]
    if not gaps:
        return None
    what = "%d gap%s longer than %d ms, up to %d ms" % (
        len(gaps),
        "" if len(gaps) == 1 else "s",
        LONG_GAP_MS,
        max(gaps),
    )
    why = "the retransmission timer of a real sender fires there, and ccp has none"
    return "the trace %s has %s: %s" % (name, what, why)


def mbits(packets: float, milliseconds: float, size: int) -> float:
    """So many packets of a size in bytes, in Mbit/s over a time."""
    return 8 * size * packets / (1000 * milliseconds)


def write(times: Sequence[int]) -> None:
    """Prints a trace that the makers and changes gave, if it is one."""
    if not times or not times[-1]:
        raise CcpError("nothing is left: a trace needs a time above 0 ms")
    if times[-1] > LONGEST_MS:
        raise CcpError("the trace would end at %d ms, and a time is at most %d ms" % (times[-1], LONGEST_MS))
    sys.stdout.write(trace_text(times))


# ---- info


def counts_in(times: Sequence[int], window: int) -> List[int]:
    """The chances in each whole window of the trace; one window at least."""
    counts = [0] * max(1, times[-1] // window)
    for time in times:
        # a time that ends a window is of this window, as the last one is of the trace
        at = max(0, time - 1) // window
        if at < len(counts):
            counts[at] += 1
    return counts


def info_of(path: str, times: Sequence[int], window: int, size: int) -> Dict[str, Any]:
    """What the trace of a file is like: its length, rates in windows of `window` milliseconds, and gaps."""
    if times[-1] // window > captures.MOST_CHANCES:
        raise CcpError("%s: its last time is %d ms, which is no trace's" % (name_of(path), times[-1]))
    rates = sorted(mbits(count, min(window, times[-1]), size) for count in counts_in(times, window))
    gaps = gaps_of(times)
    return {
        "trace": path,
        "chances": len(times),
        "seconds": times[-1] / 1e3,
        "minutes": round(times[-1] / 6e4, 3),
        "mean_mbps": round(mbits(len(times), times[-1], size), 3),
        "window_ms": window,
        "window_least_mbps": round(rates[0], 3),
        "window_median_mbps": round(nearest_rank(rates, 50), 3),
        "window_most_mbps": round(rates[-1], 3),
        "gap_most_ms": max(gaps),
        "gaps_over_100_ms": sum(gap > 100 for gap in gaps),
        "gaps_over_200_ms": sum(gap > LONG_GAP_MS for gap in gaps),
        "gaps_over_1000_ms": sum(gap > 1000 for gap in gaps),
        "most_in_a_millisecond": most_equal(times),
        "bytes_in_a_scenario": len(json.dumps(trace_text(times))),
    }


def most_equal(times: Sequence[int]) -> int:
    """The most chances at one time."""
    most = run = 0
    for at, time in enumerate(times):
        run = run + 1 if at and times[at - 1] == time else 1
        most = max(most, run)
    return most


def info(given: argparse.Namespace) -> None:
    """Prints what traces are like, and before it on standard error which ones have long gaps."""
    traces = {path: read_trace(path, None) for path in given.traces}
    pages = [info_of(path, times, given.window, given.packet) for path, times in traces.items()]
    if not given.quiet:
        for text in filter(None, (gap_warning(name_of(path), times) for path, times in traces.items())):
            warn(text)
    show(pages, "trace", given.json)


def show(found: List[Dict[str, Any]], head: str, is_json: bool) -> None:
    """Prints pages of values, each under its value of `head`, or all as JSON."""
    if is_json:
        print(json.dumps(found, indent=1))
        return
    for values in found:
        print(values.pop(head))
        print("".join("  %-21s %s\n" % (name, value) for name, value in values.items()), end="")


# ---- changes


def cut(given: argparse.Namespace) -> None:
    """Prints a part of a trace."""
    if given.to <= given.first:
        raise UsageError("--to %d isn't after --from %d" % (given.to, given.first))
    times = read_trace(given.trace, None)
    write([time - given.first for time in times if given.first < time <= given.to or time == given.first == 0])


def scale(given: argparse.Namespace) -> None:
    """Prints a trace with another rate or another length."""
    times = read_trace(given.trace, None)
    if given.time:
        write([round(time * given.time) for time in times])
        return
    write(multiplied(times, len(times) * given.rate) if given.rate else with_mean(times, given.mean, given.packet))


def with_mean(times: Sequence[int], mbps: float, size: int) -> List[int]:
    """The trace with this mean rate, in Mbit/s of packets of `size` bytes, to the nearest whole number of chances."""
    return multiplied(times, mbps / mbits(1, times[-1], size))


def multiplied(times: Sequence[int], wanted: float) -> List[int]:
    """The trace with about so many chances: those up to each time are as many times more, so that gaps, waves and the
    length stay."""
    count = max(1, round(wanted))
    if count > captures.MOST_CHANCES:
        raise CcpError("the trace would have %d chances, and at most %d are made" % (count, captures.MOST_CHANCES))
    return [times[-(-(number + 1) * len(times) // count) - 1] for number in range(count)]


# ---- sources


def from_csv(given: argparse.Namespace) -> None:
    """Prints a trace of a CSV file."""
    is_rate = given.count in captures.RATES
    kind = given.kind or ("intervals" if is_rate else "packets")
    if is_rate and kind != "intervals":
        raise UsageError("--count %s: a rate is that of an interval, and --kind %s has none" % (given.count, kind))
    if kind == "iperf":
        write(captures.chances(captures.iperf_spans(given.csv, given.packet)))
        return
    table = captures.Table(
        time_column=given.time_column,
        count_column=given.count_column,
        count=given.count,
        unit=given.unit,
        time_format=given.time_format,
        separator=given.separator,
        packet=given.packet,
        is_begin=(given.time_is or ("begin" if is_rate else "end")) == "begin",
    )
    spans = captures.packet_spans if kind == "packets" else captures.interval_spans
    write(captures.chances(spans(given.csv, table)))


def from_iperf3(given: argparse.Namespace) -> None:
    """Prints a trace of iperf3's JSON."""
    write(captures.chances(captures.iperf3_spans(given.file, given.packet, given.reverse)))


def from_pcap(given: argparse.Namespace) -> None:
    """Prints a trace of a packet capture."""
    write(captures.chances(captures.capture_spans(given.capture, given.packet, given.filter)))


def from_mahimahi_log(given: argparse.Namespace) -> None:
    """Prints the link of a log."""
    write(link_logs.times_of_log(given.log))


def measured(given: argparse.Namespace) -> None:
    """Prints what the real senders of logs had."""
    found = [measured_of_log(path, flow=given.flow, until_s=given.until) for path in given.logs]
    pages = [rounded(dataclasses.asdict(one)) for one in found]
    show(pages, "path", given.json)


def rounded(values: Dict[str, Any]) -> Dict[str, Any]:
    """Values with at most six digits after the point."""
    return {name: round(value, 6) if isinstance(value, float) else value for name, value in values.items()}


def to_mahimahi_log(given: argparse.Namespace) -> None:
    """Prints a case of `ccp acks` as a log."""
    if given.scenario == given.acks == "-":
        raise UsageError("SCENARIO and ACKS can't both be standard input")
    scenario = read_scenario(given.scenario)
    place = name_of(given.acks)
    text = read_text(given.acks, "a text of `ccp acks`")
    try:
        flows = list(acks_in(text))
    except CcpError as error:
        raise CcpError("%s: %s" % (place, error)) from None
    flow = flow_of_case(flows, given.case, place)
    case = case_of(scenario, flow.case, name_of(given.scenario))
    times = trace_times(scenario["traces"][case["trace"]], "trace " + case["trace"])
    sys.stdout.write(link_logs.log_text(case, flow.acks, times))


def flow_of_case(flows: Sequence[Any], name: str | None, place: str) -> Any:
    """The flow of a case, or the only one."""
    names = [flow.case for flow in flows]
    shown = ", ".join(names[:8]) + (" and %d more" % (len(names) - 8) if len(names) > 8 else "")
    if name is None and len(flows) == 1:
        return flows[0]
    if not flows:
        raise CcpError("%s: there is no flow in it: `ccp acks` prints what is expected" % place)
    if name is None:
        raise UsageError(
            "%s has %d flows, and a log is of one: --case NAME names it, of %s" % (place, len(flows), shown)
        )
    if name not in names:
        raise CcpError("%s: there is no case %s; there are %s" % (place, name, shown))
    return flows[names.index(name)]


def case_of(scenario: Dict[str, Any], name: str, place: str) -> Dict[str, Any]:
    """The case of a name, with the members that a log is made of."""
    needed = {"name": str, "trace": str, "mss": int, "queue": int, "delay_us": int}
    cases = scenario.get("cases")
    for case in cases if isinstance(cases, list) else []:
        if isinstance(case, dict) and case.get("name") == name:
            wrong = [member for member, kind in needed.items() if type(case.get(member)) is not kind]
            traces = scenario.get("traces")
            if wrong:
                raise CcpError("%s: the case %s has no member %s that ccp would accept" % (place, name, wrong[0]))
            if not isinstance(traces, dict) or not isinstance(traces.get(case["trace"]), str):
                raise CcpError("%s: there is no trace %s" % (place, case["trace"]))
            return case
    raise CcpError("%s: there is no case %s, which the acknowledgements are of" % (place, name))


# ---- makers


def make(given: argparse.Namespace) -> None:
    """Prints a synthetic trace."""
    length = round(1000 * given.seconds)
    if not 1 <= length <= LONGEST_MS:
        raise CcpError("--seconds is at least 0.001 and at most %d" % (LONGEST_MS // 1000))
    mean = max(given.rates) if given.what == "steps" else given.mean or MEAN_MBPS
    if synthetic.per_millisecond(mean, given.packet) * length > captures.MOST_CHANCES:
        raise CcpError("the trace would have more than %d chances" % captures.MOST_CHANCES)
    if given.what == "steps":
        write(synthetic.steps(length, given.rates, given.every, given.packet))
        return
    if given.what == "lte":
        times = synthetic.lte(length, mean, given.max, given.packet, given.seed)
    else:
        maker = synthetic.wifi if given.what == "wifi" else synthetic.satellite
        times = maker(length, mean, given.packet, given.seed)
    # with a highest rate the mean is lower, and more chances would pass that rate
    is_exact = given.mean and times and times[-1] and not getattr(given, "max", None)
    write(with_mean(times, given.mean, given.packet) if is_exact else times)


# ---- arguments


def positive(text: str) -> float:
    """A number above 0, which may have a fraction."""
    found = float(text) if re.fullmatch(r"[0-9]{0,15}\.?[0-9]{1,15}", text) else 0.0
    if not found:
        raise argparse.ArgumentTypeError("%s isn't a number above 0" % (text or "an empty word"))
    return found


def separator(text: str) -> str:
    """The sign between columns; "" stands for any blanks."""
    names = {"tab": "\t", "\\t": "\t", "space": "", " ": ""}
    if text not in names and (len(text) != 1 or text in '"\r\n'):
        raise argparse.ArgumentTypeError("%s isn't one sign, tab or space" % (text or "an empty word"))
    return names.get(text, text)


def add_arguments(parser: argparse.ArgumentParser) -> None:
    """Adds the arguments of `ccp trace`."""
    kinds = parser.add_subparsers(dest="what", required=True, metavar="COMMAND")
    add_changes(kinds)
    add_csv(kinds)
    add_sources(kinds)
    add_logs(kinds)
    add_makers(kinds)


def command(kinds: Any, name: str, work: Any, what: str, has_packet: bool = True) -> argparse.ArgumentParser:
    """A command of `ccp trace`."""
    made: argparse.ArgumentParser = kinds.add_parser(name, help=what, description=what)
    made.set_defaults(work=work)
    if has_packet:
        size = whole(1, 65_535)
        made.add_argument(
            "--packet", type=size, default=1500, metavar="BYTES", help="the bytes of a packet for rates (1500)"
        )
    return made


def add_changes(kinds: Any) -> None:
    """Adds the commands that show and change traces."""
    made = command(
        kinds, "info", info, "Prints the length, the mean rate, the rate in windows, and the gaps of traces."
    )
    window = whole(1, LONGEST_MS)
    made.add_argument("--window", type=window, default=1000, metavar="MS", help="the length of a window (1000)")
    made.add_argument("--json", action="store_true", help="as JSON")
    made.add_argument("traces", nargs="+", metavar="TRACE")
    made = command(kinds, "cut", cut, "Prints the times after FROM and up to TO, less FROM.")
    first = whole(0, 2**40)
    made.add_argument("--from", dest="first", type=first, default=0, metavar="MS", help="where the part begins (0)")
    made.add_argument("--to", type=whole(1, 2**40), required=True, metavar="MS", help="where it ends")
    made.add_argument("trace", metavar="TRACE")
    made = command(kinds, "scale", scale, "Prints the trace with another rate or another length.")
    how = made.add_mutually_exclusive_group(required=True)
    how.add_argument("--rate", type=positive, metavar="F", help="F times as many chances, at the same times")
    how.add_argument("--mean", type=positive, metavar="MBIT", help="as many chances as give this mean rate")
    how.add_argument("--time", type=positive, metavar="F", help="the same chances, each time F times as late")
    made.add_argument("trace", metavar="TRACE")


def add_csv(kinds: Any) -> None:
    """Adds from-csv."""
    what = "Makes a trace of a CSV text. A packet is a chance each time that its bytes have come."
    made = command(kinds, "from-csv", from_csv, what)
    made.add_argument(
        "--kind",
        choices=["packets", "intervals", "iperf"],
        help="a row a packet, as of a capture; a row an interval; or the lines of `iperf -y C -i 1` (packets; intervals"
        " where --count is a rate)",
    )
    made.add_argument(
        "--time-column", default="1", metavar="COLUMN", help="name or number of the column with the time (1)"
    )
    made.add_argument(
        "--count-column", default="2", metavar="COLUMN", help="name or number of the column with the count (2)"
    )
    made.add_argument(
        "--count",
        choices=captures.COUNTS,
        default="bytes",
        help="what that column has: bytes, packets or a rate; or `rows`, where each row is a packet (bytes)",
    )
    made.add_argument("--unit", choices=list(captures.UNITS), default="s", help="the unit of the time (s)")
    form = "the form of the time in place of --unit, as '%%Y-%%m-%%d %%H:%%M:%%S'"
    made.add_argument("--time-format", metavar="FORM", help=form)
    made.add_argument(
        "--time-is",
        choices=["begin", "end"],
        help="where in its interval the time of a row is (end; begin where --count is a rate)",
    )
    made.add_argument(
        "--separator", type=separator, default=",", metavar="SIGN", help="the sign between columns, tab or space (,)"
    )
    made.add_argument("csv", metavar="CSV")


def add_sources(kinds: Any) -> None:
    """Adds from-iperf3 and from-pcap."""
    what = "Makes a trace of what `iperf3 --json` or --json-stream wrote."
    made = command(kinds, "from-iperf3", from_iperf3, what)
    made.add_argument("--reverse", action="store_true", help="the other direction of a run with --bidir")
    made.add_argument("file", metavar="JSON")
    what = "Makes a trace of a packet capture (pcap, pcapng), which tshark reads."
    made = command(kinds, "from-pcap", from_pcap, what)
    made.add_argument("--filter", metavar="F", help="takes these packets alone, as 'tcp.srcport == 5001' (all)")
    made.add_argument("capture", metavar="CAPTURE")


def add_logs(kinds: Any) -> None:
    """Adds the commands that read and write logs of links."""
    what = "Makes a trace of the chances in a log of `mm-link --uplink-log` or --downlink-log, or in one of Pantheon's."
    made = command(kinds, "from-mahimahi-log", from_mahimahi_log, what, has_packet=False)
    made.add_argument("log", metavar="LOG")
    what = "Prints throughput, delay and loss of the real sender of a log of Mahimahi or Pantheon."
    made = command(kinds, "measured", measured, what, has_packet=False)
    made.add_argument("--flow", type=whole(0, 10**9 - 1), metavar="N", help="one flow of a log of several (all)")
    made.add_argument("--until", type=positive, metavar="S", help="the first S seconds alone")
    made.add_argument("--json", action="store_true", help="as JSON")
    made.add_argument("logs", nargs="+", metavar="LOG")
    what = "Writes what `ccp acks` printed of a case as a log of Mahimahi."
    made = command(kinds, "to-mahimahi-log", to_mahimahi_log, what, has_packet=False)
    made.add_argument("--case", metavar="NAME", help="the case, where ACKS has several")
    made.add_argument("scenario", metavar="SCENARIO")
    made.add_argument("acks", metavar="ACKS")


def add_makers(kinds: Any) -> None:
    """Adds the commands that make synthetic traces."""
    whats = {
        "lte": "A wandering rate with outages.",
        "wifi": "Bursts and waits.",
        "satellite": "A steady rate with a gap and a change each 15 s.",
    }
    for name, what in whats.items():
        made = command(kinds, name, make, what + " Synthetic, by a seed.")
        made.add_argument("--seed", type=whole(0, 2**32 - 1), default=1, help="another seed is another trace (1)")
        made.add_argument("--seconds", type=positive, default=30, metavar="S", help="the length (30)")
        made.add_argument("--mean", type=positive, metavar="MBIT", help="the mean rate (about %d)" % MEAN_MBPS)
        if name == "lte":
            what = "the highest rate, with which the mean is lower (three times the mean)"
            made.add_argument("--max", type=positive, metavar="MBIT", help=what)
            deprecated(made, "--most", "--max")
    made = command(kinds, "steps", make, "Constant rates one after another.")
    rates = list_of(positive)
    made.add_argument("--rates", type=rates, required=True, metavar="LIST", help="rates in Mbit/s with commas between")
    made.add_argument("--every", type=positive, default=5, metavar="S", help="how long each one lasts (5)")
    made.add_argument("--seconds", type=positive, default=30, metavar="S", help="the length (30)")


def run(arguments: argparse.Namespace) -> int:
    """Does what the arguments of `ccp trace` ask for, and returns the exit status."""
    arguments.work(arguments)
    return 0
