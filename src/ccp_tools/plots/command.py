"""The command `ccp plot`."""

from __future__ import annotations

import argparse
import re
import sys
from functools import partial
from typing import Any, Callable, Dict, List, Mapping, Sequence, Tuple

import numpy as np
import pandas as pd
from matplotlib.figure import Figure

from .. import metrics, texts
from ..arguments import add_ccp, deprecated, list_of, whole
from ..errors import CcpError
from ..files import name_of, read_text
from ..frames import AckFrame, Timeline, acks_in, read_timeline
from ..metrics import SHOWN
from ..scenario_files import read_run_scenario, scenario_of
from . import over_time, packets, pages, parameters, points, shared_link
from .pages import FONT, MOST_SENDERS, SIZES, Look
from .series import column

SCENARIO = "its scenario, for traces and senders"

# ---- arguments


def metric(text: str) -> str:
    """The name of a metric."""
    if text not in SHOWN:
        raise argparse.ArgumentTypeError("%s is no metric: %s are accepted" % (text, ", ".join(SHOWN)))
    return text


def size(text: str) -> str | Tuple[int, int]:
    """A size: screen, page, column, or WxH in points."""
    found = re.fullmatch(r"([0-9]{2,5})x([0-9]{2,5})", text)
    if text not in SIZES and not found:
        raise argparse.ArgumentTypeError("%s: %s and WxH in points are accepted, as 900x600" % (text, ", ".join(SIZES)))
    return (int(found[1]), int(found[2])) if found else text


def font(text: str) -> Tuple[str, float | None]:
    """A font as NAME or NAME,POINTS."""
    found = re.fullmatch(r"([^,]+)(?:,([0-9]+(?:\.[0-9]+)?))?", text)
    if not found:
        raise argparse.ArgumentTypeError("%s: NAME or NAME,POINTS is accepted, as DejaVu Sans,9" % text)
    return found[1].strip(), float(found[2]) if found[2] else None


def add_look(parser: argparse._ActionsContainer) -> None:
    """Adds --size, --title and --font, which `look_of` reads."""
    what = "screen (900 points wide), page (516), column (252), or WxH in points (screen)"
    parser.add_argument("--size", type=size, default="screen", metavar="SIZE", help=what)
    parser.add_argument("--title", default="", help="a title above the legend")
    parser.add_argument("--font", type=font, default=(FONT, None), metavar="NAME[,POINTS]", help="the font (%s)" % FONT)


def look_of(arguments: argparse.Namespace) -> Look:
    """The look that --size, --title and --font ask for."""
    return Look(arguments.size, arguments.title, *arguments.font)


def add_kind(kinds: Any, name: str, what: str, text: str, metavar: str) -> Callable[..., Any]:
    """Adds a kind of plot with the arguments that several kinds have, and returns its add_argument."""
    made = kinds.add_parser(name, help=what, description=what)
    add_look(made)
    made.add_argument("text", metavar=metavar, help=text)
    made.add_argument("plots", nargs="+", metavar="FILE", help="the files, which end with .svg, .png, .pdf or .eps")
    if name in ("flows", "delay", "cdf"):
        made.add_argument("--until", type=metrics.seconds, metavar="S", help="only the first S seconds (all)")
        numbers = list_of(whole(0, 10**6))
        made.add_argument("--flows", type=numbers, metavar="LIST", help="numbers of flows, as 0,2 (all)")
    if name == "flows":
        made.add_argument("--acks-file", metavar="ACKS", help="what `acks` printed of the same scenario")
        deprecated(made, "--acks", "--acks-file")
    if name == "shares":
        add_ccp(made)
    return made.add_argument


def add_arguments(parser: argparse.ArgumentParser) -> None:
    """Adds the kinds of plots with their arguments."""
    kind = partial(add_kind, parser.add_subparsers(dest="what", required=True, metavar="|".join(PAGES)))
    figures, shown = "what `ccp metrics` wrote", ["throughput_mbps", "loss_rate", "queueing_p95_ms"]
    add = kind("bars", "metrics of cases as bars, with intervals over seeds", figures, "METRICS")
    each = "a panel each (%s)" % ",".join(shown)
    add("--metrics", type=list_of(metric), default=shown, metavar="LIST", help=each)
    add = kind("scatter", "throughput over queueing delay, a panel a trace", figures, "METRICS")
    for axis, where, name in (("--x", "across", "queueing_p95_ms"), ("--y", "upwards", "throughput_mbps")):
        add(axis, type=metric, default=name, metavar="METRIC", help="the metric %s (%s)" % (where, name))
    add = kind("lines", "a metric over a parameter, with intervals over seeds", figures, "METRICS")
    add_axes(add, ("--x", "across"))
    add = kind("heat", "a metric over two parameters, as colours", figures, "METRICS")
    add_axes(add, ("--x", "across"), ("--y", "upwards"))
    what = "throughput, window, round-trip time and marks over time"
    add = kind("flows", what, "what `timeline` or `live` printed", "TIMELINE")
    add("--scenario", metavar="SCENARIO", help="its scenario, for the link's capacity and windows in segments")
    add = kind("delay", "each packet's round-trip time over time, and its distribution", "what `acks` printed", "ACKS")
    add("--scenario", metavar="SCENARIO", help=SCENARIO)
    add = kind("cdf", "the distribution of round-trip times", "what `acks` printed", "ACKS")
    add("--scenario", metavar="SCENARIO", help=SCENARIO)
    what = "throughput, loss and queueing delay of a table's cases as bars"
    add = kind("table", what, "what `campaign` or `shared` printed", "TABLE")
    add("--scenario", metavar="SCENARIO", help=SCENARIO)
    add("--timeline", metavar="TIMELINE", help="what `timeline` printed of it, for the queueing delay")
    text = "what `shared-acks` printed, or a scenario of `shared`, which is run"
    add = kind("shares", "each flow's share of a bottleneck over time", text, "ACKS")
    add("--scenario", metavar="SCENARIO", help="its scenario, for the link's capacity and the queue")
    add("--window-ms", type=whole(1, 10**6), metavar="W", help=metrics.WINDOW_HELP)
    what = "of a scenario: points of time, for each of which `shared` is run (50)"
    add("--steps", type=whole(2, 1000), default=50, metavar="N", help=what)


def add_axes(add: Callable[..., Any], *axes: Tuple[str, str]) -> None:
    """Adds the metric of a plot over parameters, and the parameter of each axis."""
    name = "throughput_mbps"
    add("--metric", type=metric, default=name, metavar="METRIC", help="the metric that is shown (%s)" % name)
    for axis, where in axes:
        what = "the parameter %s: a column, as queue, or a control variable of --set" % where
        more = " (the only one in which cases differ)" if len(axes) == 1 else ""
        add(axis, metavar="COLUMN", required=len(axes) > 1, help=what + more)


# ---- what is plotted


def pages_of_parameters(arguments: argparse.Namespace) -> List[Figure]:
    """Lines over a parameter, or heat maps over two."""
    wanted = [arguments.x] if arguments.what == "lines" else [arguments.x, arguments.y]
    found = parameters.surface_of(*metrics.read_figures(arguments.text), arguments.metric, wanted, arguments.text)
    draw = parameters.lines if arguments.what == "lines" else parameters.heat
    return draw(found, look_of(arguments))


def pages_of_figures(arguments: argparse.Namespace) -> List[Figure]:
    """Bars, or a scatter."""
    found = points.points_of(*metrics.read_figures(arguments.text))
    names = arguments.metrics if arguments.what == "bars" else (arguments.x, arguments.y)
    points.check_metrics(found, names, arguments.text)
    if arguments.what == "bars":
        return points.bars(found, names, look_of(arguments))
    return points.scatter(found, arguments.x, arguments.y, look_of(arguments))


def acks_of(path: str, numbers: Sequence[int] | None) -> List[AckFrame]:
    """The acknowledgements of some flows of a text of `acks`, or of all."""
    with metrics.opened(path) as file:
        found = [flow for flow in acks_in(file) if numbers is None or flow.number in numbers]
    check_numbers(numbers, [flow.number for flow in found], path)
    return found


def check_numbers(wanted: Sequence[int] | None, known: Sequence[int], path: str) -> None:
    """Refuses by a CcpError a flow of --flows that the file at `path` doesn't have."""
    for number in wanted or []:
        if number not in known:
            raise CcpError("%s: there is no flow %d in it" % (name_of(path), number))


def pages_of_trips(arguments: argparse.Namespace) -> List[Figure]:
    """Distributions, or each packet over time."""
    scenario = read_run_scenario(arguments.scenario) if arguments.scenario else None
    found = acks_of(arguments.text, arguments.flows)
    if arguments.until:
        kept = [one.frame[one.frame["now"] <= arguments.until] for one in found]
        found = [AckFrame(one.number, one.case, one.agent, frame) for one, frame in zip(found, kept)]
    flows, look = packets.named_flows(found, scenario), look_of(arguments)
    return packets.delay(flows, look) if arguments.what == "delay" else packets.cdf(flows, look)


def timeline_in(path: str) -> Timeline:
    """The timeline of a file of `timeline` or `live`. A CcpError with the file's name where it is none."""
    text = read_text(path)
    if texts.kind_of(text) != "live":
        raise CcpError("%s: this is no text of `timeline` or `live`" % name_of(path))
    try:
        return read_timeline(text)
    except CcpError as error:
        raise CcpError("%s: %s" % (name_of(path), error)) from None


def pages_of_flows(arguments: argparse.Namespace) -> List[Figure]:
    """The pages of `flows`."""
    timeline = timeline_in(arguments.text)
    check_numbers(arguments.flows, list(timeline.ends["flow"]), arguments.text)
    scenario = read_run_scenario(arguments.scenario) if arguments.scenario else None
    wanted = arguments.flows if arguments.flows is not None else [int(number) for number in timeline.ends["flow"]]
    acks = {flow.number: flow for flow in acks_of(arguments.acks_file, wanted)} if arguments.acks_file else None
    if not arguments.quiet:
        print_notes(timeline, wanted, acks is not None)
    until_s = arguments.until and arguments.until / 1e6
    return over_time.flows(timeline, wanted, scenario, acks, look_of(arguments), until_s)


def print_notes(timeline: Timeline, numbers: Sequence[int], has_acks: bool) -> None:
    """Notes on standard error of what a plot can't show of a flow."""
    fields = {"round-trip time": ("rtt",), "throughput": ("acked", "delivered")}
    for end in timeline.ends[timeline.ends["flow"].isin(numbers)].itertuples():
        name = "flow %s, %s" % (end.flow, end.case)
        reports = timeline.reports[timeline.reports["flow"] == end.flow]
        if end.held:
            note("%s: %d reports were held" % (name, end.held))
        for what, names in fields.items() if not has_acks else ():
            values = column(reports, *names)
            if not (values > 0).any() if what == "round-trip time" else not np.isfinite(values).any():
                text = "%s: its reports have no field %s; --acks-file gives its %s"
                note(text % (name, " or ".join(names), what))


def note(text: str) -> None:
    """Prints a note on standard error."""
    print("ccp plot: " + text, file=sys.stderr)


def delays_of_reports(timeline: Timeline) -> Dict[str, float]:
    """The queueing delay of each case: the mean of the field rtt over its reports less the least one, in
    milliseconds."""
    trips = timeline.reports.assign(rtt=column(timeline.reports, "rtt")).query("rtt > 0")
    found = trips.groupby("case", sort=False)["rtt"].agg(["mean", "min"])
    return dict((found["mean"] - found["min"]) / 1e3)


def pages_of_table(arguments: argparse.Namespace) -> List[Figure]:
    """The pages of `table`: throughput, loss, and with a timeline the mean queueing delay."""
    text = read_text(arguments.text)
    if texts.kind_of(text) != "table":
        raise CcpError("%s: this is no table of `campaign` or `shared`" % name_of(arguments.text))
    rows = texts.read_table(text).rows
    delays: Dict[str, float] = {}
    if arguments.timeline:
        timeline = timeline_in(arguments.timeline)
        check_counts(timeline, {row["case"]: row for row in rows}, arguments.timeline)
        delays = delays_of_reports(timeline)
        if not delays:
            raise CcpError("%s: no case of the table has reports with a field rtt" % name_of(arguments.timeline))
    made = own_rows(arguments.scenario, rows)
    for own, row in zip(made, rows):
        packets_sent = row["acks"] - row["timeouts"] + row["lost"]
        own["throughput_mbps"] = 8 * row["acked"] / row["now"] if row["now"] else 0.0
        own["loss_rate"] = row["lost"] / packets_sent if packets_sent else 0.0
        own["queueing_mean_ms"] = delays.get(row["case"])
    shown = ["throughput_mbps", "loss_rate", *(["queueing_mean_ms"] if delays else [])]
    return points.bars(points.points_of(pd.DataFrame(made)), shown, look_of(arguments))


def check_counts(timeline: Timeline, rows: Mapping[str, Any], path: str) -> None:
    """Refuses a timeline of another run than the table."""
    for end in timeline.ends.itertuples():
        if end.case not in rows:
            raise CcpError("%s: the table has no case %s" % (name_of(path), end.case))
        counts = {name: getattr(end, name) for name in ("acks", "reports", "held", "faults", "epochs")}
        texts.same_run(end.case, "timeline", counts, rows[end.case])


def own_rows(path: str | None, rows: Sequence[Mapping[str, Any]]) -> List[Dict[str, Any]]:
    """The scenario's columns of each row of a table, or what its cases' names say."""
    if path:
        own = {row["case"]: row for row in metrics.columns_of(read_run_scenario(path), path)[1]}
        return [dict(packets.known_case(own, row["case"])) for row in rows]
    splits = [split_name(row) for row in rows]
    if not all(splits):
        splits = [(row["case"], row["agent"]) for row in rows]
    return [{"case": row["case"], "trace": split[0], "sender": split[1]} for row, split in zip(rows, splits) if split]


def split_name(row: Mapping[str, Any]) -> Tuple[str, str] | None:
    """The group and the sender of a case's name, as `ccp scenario` makes it: the trace, the sender, and what varies."""
    parts = row["case"].split("-")
    at = [at for at, part in enumerate(parts) if part.split(".")[0] == row["agent"] and at > 0]
    if not at:
        return None
    return "\n".join(filter(None, ["-".join(parts[: at[0]]), " ".join(parts[at[0] + 1 :])])), parts[at[0]]


def pages_of_shares(arguments: argparse.Namespace) -> List[Figure]:
    """The page of `shares`, of acknowledgements or of a scenario."""
    text, look = read_text(arguments.text), look_of(arguments)
    if not text.startswith("flow "):
        return [shares_of_scenario(scenario_of(text, name_of(arguments.text)), arguments, look)]
    scenario = read_run_scenario(arguments.scenario) if arguments.scenario else None
    if scenario is None and not arguments.quiet:
        note("--scenario gives the link's capacity and the queue")
    try:
        return [shared_link.shares_of_acks(text, scenario, arguments.window_ms and 1000 * arguments.window_ms, look)]
    except CcpError as error:
        raise CcpError("%s: %s" % (name_of(arguments.text), error)) from None


def shares_of_scenario(scenario: Mapping[str, Any], arguments: argparse.Namespace, look: Look) -> Figure:
    """The shares of a scenario, for which the program is run."""
    shared = scenario.get("shared")
    if not isinstance(shared, dict) or not isinstance(shared.get("rounds"), int):
        raise CcpError(
            "%s: it has no member shared with rounds: this is no scenario of `shared`" % name_of(arguments.text)
        )
    names = [case["name"] for case in scenario["cases"]]
    if len(names) > MOST_SENDERS:
        raise CcpError("%d flows: a plot of shares has at most %d" % (len(names), MOST_SENDERS))
    times, acked = shared_link.shared_runs(scenario, arguments.steps, arguments.ccp)
    return shared_link.shares(shared_link.flow_labels(scenario["cases"]), times, acked, look)


PAGES: Dict[str, Callable[[argparse.Namespace], List[Figure]]] = {
    "bars": pages_of_figures,
    "scatter": pages_of_figures,
    "lines": pages_of_parameters,
    "heat": pages_of_parameters,
    "flows": pages_of_flows,
    "delay": pages_of_trips,
    "cdf": pages_of_trips,
    "table": pages_of_table,
    "shares": pages_of_shares,
}


def run(arguments: argparse.Namespace) -> int:
    """Runs `ccp plot`."""
    for path in arguments.plots:
        pages.kind_of_file(path)
    look = look_of(arguments)
    made = pages.drawn(look, lambda: PAGES[arguments.what](arguments))
    if not made:
        raise CcpError("%s: there is nothing to plot: no report and no case" % name_of(arguments.text))
    for path in arguments.plots:
        names = pages.save(made, path, look)
        if len(names) > 1 and not arguments.quiet:
            note("%d pages: %s" % (len(names), ", ".join(map(str, names))))
    return 0
