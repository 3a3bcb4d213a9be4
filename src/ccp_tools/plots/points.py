"""Bars and scatters of figures: what cases are called, their means and intervals, and their panels."""

from __future__ import annotations

import math
import re
import textwrap
from dataclasses import dataclass
from functools import partial
from typing import Any, Dict, Iterable, List, Mapping, Sequence

import numpy as np
import pandas as pd
from matplotlib.axes import Axes
from matplotlib.figure import Figure
from matplotlib.lines import Line2D
from matplotlib.patches import Patch

from .. import metrics
from ..errors import CcpError
from ..metrics import SHOWN
from . import pages
from .pages import MOST_PANELS, MOST_SENDERS, Look, bar_look, chunks, line_look, mark_look

MOST_BARS, MOST_GROUPS = 32, 16
# how many bars, with the gaps between groups, take the width of a page at least
LEAST_ACROSS = 5.0
# what cases may differ in beside trace, sender and seed, and what stands for a case without it
VARIED: Dict[str, Any] = dict(
    queue=None, delay_ms=None, mss=None, mark="none", loss="none", lag=0, slots=4, timeout_ms=None
)


# ---- what cases are called


def is_known(value: Any) -> bool:
    """Whether a value of a frame is there: neither None, nor NA, nor NaN."""
    return value is not None and value is not pd.NA and value == value


def said_of(name: str, value: Any) -> str:
    """A value as a label shows it."""
    text = "%g" % value if isinstance(value, (int, float)) else "none" if value is None else str(value)
    return "%s %s ms" % (name[: -len("_ms")], text) if name.endswith("_ms") else "%s %s" % (name, text)


def label_of(trace: Any, settings: Mapping[str, Any]) -> str:
    """A group's label: its trace, and its settings, two on a line."""
    said = chunks([said_of(name, value) for name, value in settings.items()], 2)
    return "\n".join([*([str(trace)] if is_known(trace) else []), *map(", ".join, said)])


def labels_of(rows: Sequence[Mapping[str, Any]]) -> List[str]:
    """The label of each case's group: its trace, and what varies between the cases, where it isn't what stands for a
    case without it. Where two cases of one sender and one seed would have the same, their names are added."""
    settings = [{name: row[name] if is_known(row.get(name)) else VARIED[name] for name in VARIED} for row in rows]
    varying = [name for name in VARIED if len({str(one[name]) for one in settings}) > 1]
    shown = [{name: one[name] for name in varying if one[name] != VARIED[name]} for one in settings]
    labels = [label_of(row.get("trace"), one) for row, one in zip(rows, shown)]
    places = [(label, row["sender"], str(row.get("seed"))) for label, row in zip(labels, rows)]
    return [
        label if places.count(place) == 1 else "%s\n%s" % (label, row["case"])
        for label, row, place in zip(labels, rows, places)
    ]


# ---- means and intervals


@dataclass(frozen=True)
class Points:
    """Bars, or points of a scatter. `frame` has a row for each: its `group` and `sender`, and of each metric NAME_mean,
    NAME_ci95 and NAME_sd, as metrics.groups has them. `cases` are the figures of their cases, where they are known."""

    frame: pd.DataFrame
    cases: pd.DataFrame | None = None


def points_of(frame: pd.DataFrame, is_grouped: bool = False) -> Points:
    """The points of figures, as `metrics.figures` or, with is_grouped, `metrics.groups` has them. Cases that differ in
    their seed alone are one point."""
    rows = metrics.rows_of(frame)
    if is_grouped:
        by = [name for name in frame if name != "n" and not re.search(r"_(n|mean|sd|ci95)\Z", name)]
        varying = [name for name in by if name not in ("trace", "sender", "agent")]
        labels = [label_of(row.get("trace"), {name: row[name] for name in varying}) for row in rows]
        return Points(frame.assign(group=labels, sender=[row.get("sender") or row.get("agent") or "" for row in rows]))
    known = {name: float for name in SHOWN if name in frame}
    cases = frame.astype(known).assign(group=labels_of(rows), sender=[str(row["sender"]) for row in rows])
    return Points(metrics.groups(cases, ["group", "sender"], list(known)), cases)


def sender_parts(frame: pd.DataFrame) -> List[Sequence[str]]:
    """The senders of points in order, in parts of as many as a panel tells apart."""
    return chunks(list(frame["sender"].unique()), MOST_SENDERS)


def check_metrics(points: Points, names: Iterable[str], what: str) -> None:
    """Refuses a metric that no point has."""
    for name in names:
        if name + "_mean" not in points.frame or points.frame[name + "_mean"].isna().all():
            raise CcpError("%s: it has no value of %s: docs/metrics.md says which text gives it" % (what, name))


# ---- bars


def bars(points: Points, names: Sequence[str], look: Look = Look()) -> List[Figure]:
    """The pages of bars: a panel a metric, with the groups side by side. A page holds as many groups as fit, of at
    most eight senders."""
    frame = points.frame
    if frame.empty:
        raise CcpError("there is no case to plot")
    parts = sender_parts(frame)
    return [page for some in parts for page in bars_of(frame[frame["sender"].isin(some)], list(some), names, look)]


def bars_of(frame: pd.DataFrame, senders: List[str], names: Sequence[str], look: Look) -> List[Figure]:
    """The pages of bars of some senders."""
    counts = frame["group"].value_counts(sort=False)
    for size in range(min(MOST_GROUPS, len(counts)), 0, -1):
        parts = chunks(list(frame["group"].unique()), size)
        if all(counts[list(part)].sum() <= MOST_BARS for part in parts):
            break
    return [bar_page(frame[frame["group"].isin(part)], senders, names, look) for part in parts]


def bar_page(frame: pd.DataFrame, senders: List[str], names: Sequence[str], look: Look) -> Figure:
    """A page of bars. Each bar is 1 wide, those of a group are side by side, and a gap comes between groups."""
    gap = max(0.7, len(senders) / 4)
    numbers, groups = pd.factorize(frame["group"])
    frame = frame.assign(place=numbers, number=frame["sender"].map(senders.index)).sort_values(["place", "number"])
    frame["at"] = np.arange(len(frame)) + 0.5 + gap * frame["place"]
    frame["capacity"] = capacity_of(frame)
    wrapped = partial(textwrap.fill, width=max(1, int(look.letters / len(groups))), break_long_words=False)
    labels = ["\n".join(map(wrapped, group.split("\n"))) for group in groups]
    legend: Dict[str, Any] = {name: Patch(**bar_look(number), linewidth=1) for number, name in enumerate(senders)}
    if "throughput_mbps" in names and frame["capacity"].any():
        legend["link"] = pages.link_key()
    below = 1.2 + max(label.count("\n") + 1 for label in labels)
    figure, panels = pages.page(look, legend, [9.5] * len(names), below=below, sharex=True)
    is_dense = bool(look.letters < 4.2 * (frame["at"].max() + 0.5))
    for panel, name in zip(panels, names):
        bar_panel(panel, frame, name, is_dense, look)
        panel.tick_params(axis="x", length=0)
    # one bar or two don't fill the page, with room beside them
    room = max(0.0, LEAST_ACROSS - frame["at"].max() - 0.5) / 2
    limits = (-0.6 * gap - room, frame["at"].max() + 0.5 + 0.6 * gap + room)
    panels[-1].set(xticks=frame.groupby("place")["at"].mean(), xticklabels=labels, xlim=limits)
    return figure


def capacity_of(frame: pd.DataFrame) -> pd.Series:
    """What the link could carry in the measured span, in Mbit/s: throughput over utilization. 0 where it isn't
    known."""
    none = pd.Series(0.0, frame.index)
    throughput, used = (frame.get(name + "_mean", none) for name in ("throughput_mbps", "utilization"))
    return (throughput / used.where(used > 0)).fillna(0)


def bar_panel(panel: Axes, frame: pd.DataFrame, name: str, is_dense: bool, look: Look) -> None:
    """The bars of a metric with their intervals and values. Behind those of throughput is the link's capacity."""
    factor, known = SHOWN[name].factor, frame[name + "_mean"].notna()
    values, spreads = (factor * frame[name + kind].fillna(0) for kind in ("_mean", "_ci95"))
    capacity = frame["capacity"] if name == "throughput_mbps" else 0 * values
    most = max((values + spreads).max(), capacity.max()) or 1
    panel.bar(frame["at"], capacity, 1.16, color=pages.GREY, linewidth=0)
    for number, rows in frame.groupby("number").groups.items():
        panel.bar(frame["at"][rows], values[rows], 1, linewidth=0, **bar_look(number))
    panel.bar(frame["at"], values, 1, facecolor="none", edgecolor="black", linewidth=0.8)
    wide = spreads > 0
    how = dict(fmt="none", color="black", capsize=0.3 * look.points, elinewidth=1)
    panel.errorbar(frame["at"][wide], values[wide], spreads[wide], **how)
    decimals = max(0, 2 - math.floor(math.log10(most)))
    for at, top, value, is_there in zip(frame["at"], values + spreads, values, known):
        text = " " * is_dense + ("%.*f" % (decimals, value) if is_there else "none")
        place = dict(ha="center", va="bottom", rotation=90 if is_dense else 0, fontsize=0.8 * look.points)
        panel.text(at, top + 0.015 * most, text, **place)
    panel.set(ylabel=SHOWN[name].label, ylim=(0, most * (1.34 if is_dense else 1.17)))


# ---- scatter


def scatter(
    points: Points, x: str = "queueing_p95_ms", y: str = "throughput_mbps", look: Look = Look()
) -> List[Figure]:
    """The pages of a scatter: a panel a group, with at most eight senders. A delay axis is reversed, so that up and
    right is better."""
    parts = sender_parts(points.frame)
    return [page for some in parts for page in scatter_of(points, list(some), x, y, look)]


def scatter_of(points: Points, senders: List[str], x: str, y: str, look: Look) -> List[Figure]:
    """The pages of a scatter of some senders."""
    frame, made = points.frame[points.frame["sender"].isin(senders)], []
    legend = {name: Line2D([], [], **mark_look(at)) for at, name in enumerate(senders)}
    for part in chunks(list(frame["group"].unique()), MOST_PANELS):
        figure, panels = pages.titled_page(look, legend, part, SHOWN[y].label, 5.8)
        for panel, group in zip(panels, part):
            rows = frame[frame["group"] == group].dropna(subset=[x + "_mean", y + "_mean"])
            scatter_panel(panel, points, rows, list(legend), (x, y))
        if SHOWN[y].is_more:
            arrow = dict(arrowstyle="->", linewidth=1, color="#555555")
            how = dict(arrowprops=arrow, fontsize=0.85 * look.points, color="#555555")
            panels[0].annotate("better", (0.27, 0.27), (0.06, 0.06), "axes fraction", "axes fraction", **how)
        made.append(figure)
    return made


def scatter_panel(panel: Axes, points: Points, rows: pd.DataFrame, senders: List[str], names: Sequence[str]) -> None:
    """A mark for each sender, in an outline of one standard deviation."""
    factors = np.array([SHOWN[name].factor for name in names])
    seen = [np.zeros((2, 0))]
    for _, row in rows.iterrows():
        how = mark_look(senders.index(row["sender"]))
        mean = factors * [row[name + "_mean"] for name in names]
        spread = spread_of(points, row, names)
        if spread.any():
            outline = outline_of(mean, factors[:, None] * spread * factors)
            edge = dict(edgecolor=how["color"], linestyle=line_look(senders.index(row["sender"]))["linestyle"])
            panel.fill(*outline, facecolor=(*pages.matplotlib.colors.to_rgb(how["color"]), 0.15), linewidth=1, **edge)
            seen.append(outline)
        panel.plot(mean[:1], mean[1:], markersize=9, zorder=3, **how)
        seen.append(mean[:, None])
    scatter_axes(panel, *np.hstack(seen), *names)


def spread_of(points: Points, row: Mapping[str, Any], names: Sequence[str]) -> np.ndarray:
    """The covariance of two metrics over the cases of a point, or where they aren't known, what their standard
    deviations say. 0 where there is one case."""
    if points.cases is None:
        return np.diag([np.nan_to_num(float(row[name + "_sd"])) ** 2 for name in names])
    cases = points.cases
    both = cases[(cases["group"] == row["group"]) & (cases["sender"] == row["sender"])][list(names)].dropna()
    return np.cov(both.to_numpy(dtype=float).T) if len(both) > 1 else np.zeros((2, 2))


def outline_of(mean: np.ndarray, spread: np.ndarray) -> np.ndarray:
    """The outline of one standard deviation around a mean, where it isn't below 0."""
    sizes, turns = np.linalg.eigh(spread)
    angle = np.linspace(0, 2 * np.pi, 60)
    circle = np.vstack([np.cos(angle), np.sin(angle)])
    return np.maximum(mean[:, None] + turns @ (np.sqrt(np.maximum(sizes, 0))[:, None] * circle), 0)


def scatter_axes(panel: Axes, across: np.ndarray, upwards: np.ndarray, x: str, y: str) -> None:
    """The axes of a scatter: logarithmic where values span a decade, and marked where they don't begin at 0."""
    panel.grid(axis="x")
    panel.set_xlabel(SHOWN[x].label)
    least, most = (upwards.min(), upwards.max()) if len(upwards) else (0, 1)
    room = max(0.3 * (most - least), 0.04 * most, 1e-6)
    floor = 0.0 if least - room < 0.4 * most else least - room
    panel.set_ylim(floor, most + room)
    if floor:
        pages.mark_cut(panel)
    low, high = (across.min(), across.max()) if len(across) else (0, 1)
    if low > 0 and high >= 10 * low:
        pages.log_scale(panel, "x", 0.7 * low, 1.4 * high)
    else:
        # a mark at 0 isn't cut
        panel.set_xlim(0 if low > 0.02 * high else -0.03 * high, 1.12 * high or 1)
    if not SHOWN[x].is_more:
        panel.invert_xaxis()


def overall(frame: pd.DataFrame, look: Look = Look()) -> List[Figure]:
    """One scatter over all traces, of figures that are comparable between them: utilization over the 95th percentile
    of the queueing delay, the mean of each sender with an ellipse of one standard deviation over the traces."""
    names = ("queueing_p95_ms", "utilization")
    over = frame.groupby(["sender", "trace"], sort=False)[list(names)].mean().reset_index()
    cases = over.assign(group="mean over %d traces" % over["trace"].nunique(), sender=over["sender"].astype(str))
    means = metrics.groups(cases, ["group", "sender"], names, has_intervals=False)
    return scatter(Points(means, cases), *names, look)
