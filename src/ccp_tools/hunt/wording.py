"""What a hunt found, in words: the link, what each sender does on it, and what to keep in mind."""
from __future__ import annotations

from typing import List, Sequence, Tuple

from ..traces import LONG_GAP_MS
from .goals import MOST_LOSSES, WINDOWS
from .hunted import Hunted, Quarry
from .links import MBPS, Link
from .runs import Figures, Flow

# traces of more pieces are described by their number and the mean rate
MOST_PIECES = 6
WINDOW = "the best constant window"


def trace_words(link: Link) -> str:
    """A trace in words."""
    pieces = [
        "%.3g Mbit/s for %d ms" % (MBPS * count / ms, ms) if count else "nothing for %d ms" % ms
        for ms, count in link.pieces
    ]
    if len(pieces) == 1:
        return "a constant " + pieces[0].split(" for ")[0]
    if len(pieces) <= MOST_PIECES:
        return "%s and %s in turn" % (", ".join(pieces[:-1]), pieces[-1])
    return "a trace of %d rates (%.3g Mbit/s in the mean)" % (len(pieces), link.mbps)


def link_words(link: Link) -> str:
    """A link in words."""
    parts = ["%s, a queue of %d and %g ms" % (trace_words(link), link.queue, link.delay_us / 1000)]
    parts += ["lag %d" % link.lag] if link.lag else []
    parts += ["mss %d" % link.mss] if link.mss != Link.mss else []
    parts += ["mark %d" % link.mark] if link.mark else []
    parts += ["timeout %g ms" % (link.timeout_us / 1000)] if link.timeout_us != Link.timeout_us else []
    if link.losses:
        numbers = ", ".join(map(str, link.losses))
        parts.append("packet%s %s lost" % ("s" if len(link.losses) > 1 else "", numbers))
    return ", ".join(parts)


def label_of(quarry: Quarry, flow: Flow) -> str:
    """What a sender is called: a reference that is the best of several windows isn't one sender."""
    return WINDOW if quarry.against == "windows" and flow is not quarry.flows[0] else flow.label


def flow_words(label: str, one: Figures) -> str:
    """What a sender does on the link, in words."""
    if "share" in one:
        return "%s gets %.1f %% (%.2f Mbit/s)" % (label, 100 * one["share"], one["throughput_mbps"])
    if "utilization" not in one:
        return "%s has %s" % (label, counted(one["faults"], "fault"))
    if one["utilization"] is None:
        return "%s ends before the measured time" % label
    values = (label, 100 * one["utilization"], one["throughput_mbps"], 100 * (one["loss_rate"] or 0))
    parts = ["%s uses %.1f %% of it (%.2f Mbit/s), loses %.2f %%" % values]
    parts += ["waits %.1f ms in the mean" % one["queueing_mean_ms"]] if one["queueing_mean_ms"] is not None else []
    parts += [counted(one["timeouts"], "timeout")] if one["timeouts"] else []
    parts += [counted(one["faults"], "fault")] if one["faults"] else []
    return ", ".join(parts)


def counted(count: int, what: str) -> str:
    """A number with its noun."""
    return "%d %s%s" % (count, what, "" if count == 1 else "s")


def sentence(quarry: Quarry, link: Link, shown: Sequence[Tuple[Flow, Figures]]) -> str:
    """What was found, in one sentence."""
    said = "; ".join(flow_words(label_of(quarry, flow), one) for flow, one in shown)
    return "on %s: %s" % (link_words(link), said)


def table(quarry: Quarry, shown: Sequence[Tuple[Flow, Figures]]) -> str:
    """The figures of the senders on the link, a line each."""
    names = [name for name in COLUMNS if any(one.get(name) is not None for _, one in shown)]
    rows = [["sender", *(COLUMNS[name][0] for name in names)]]
    for flow, one in shown:
        rows.append([flow.label, *(cell(name, one) for name in names)])
    widths = [max(len(row[at]) for row in rows) for at in range(len(rows[0]))]
    lines = [
        "  ".join([row[0].ljust(widths[0]), *(text.rjust(width) for text, width in zip(row[1:], widths[1:]))])
        for row in rows
    ]
    return "\n".join(line.rstrip() for line in lines) + "\n"


# the figures of the table: the heading, the factor and the decimals
COLUMNS = {
    "share": ("share %", 100, 1),
    "throughput_mbps": ("Mbit/s", 1, 2),
    "utilization": ("used %", 100, 1),
    "loss_rate": ("lost %", 100, 2),
    "queueing_mean_ms": ("wait ms", 1, 1),
    "rtt_max_ms": ("longest trip ms", 1, 1),
    "timeouts": ("timeouts", 1, 0),
    "faults": ("faults", 1, 0),
}


def cell(name: str, one: Figures) -> str:
    """A figure as the table has it."""
    _, factor, decimals = COLUMNS[name]
    value = one.get(name)
    return "-" if value is None else "%.*f" % (decimals, factor * value)


def near_words(made: Hunted) -> str:
    """On how many near links a find holds."""
    return "holds on %d of %d near links" % (made.holds, len(made.near))


def cautions(quarry: Quarry, link: Link, shown: Sequence[Tuple[Flow, Figures]]) -> List[str]:
    """What a find rests on that the model does unlike Linux, and what its reference knew. A fault is one anywhere."""
    made: List[str] = []
    if quarry.goal.runs == "tables":
        return made
    if link.gap_ms() > LONG_GAP_MS:
        made.append(
            "the link pauses for %d ms: in a gap above %d ms Linux's retransmission timer fires, and the model has none"
            % (link.gap_ms(), LONG_GAP_MS)
        )
    if shown[0][1].get("timeouts"):
        made.append(
            "%s has timeouts: the model has them only where nothing is in flight, and sends no packet again"
            % shown[0][0].label
        )
    if quarry.against == "windows":
        sizes = ", ".join(map(str, WINDOWS))
        made.append(
            "the reference knew the link: it is the best of the windows of %s segments that loses at most %g %%"
            % (sizes, 100 * MOST_LOSSES)
        )
    return made
