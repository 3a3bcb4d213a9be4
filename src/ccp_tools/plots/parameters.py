"""Figures over parameters: lines over one, with intervals over seeds, and heat maps over two."""

from __future__ import annotations

from dataclasses import dataclass
from typing import Any, Dict, List, Mapping, Sequence, Tuple

import matplotlib
import matplotlib.cm
import numpy as np
import pandas as pd
from matplotlib.axes import Axes
from matplotlib.figure import Figure
from matplotlib.transforms import offset_copy

from .. import metrics
from ..errors import CcpError, UsageError
from ..metrics import SHOWN
from . import pages
from .pages import MOST_PANELS, MOST_SENDERS, Look, chunks, line_look
from .points import VARIED, is_known, label_of

# what a parameter's axis is called; a control variable by its name
AXES = {
    "queue": "queue [packets]",
    "delay_ms": "delay [ms]",
    "mss": "segment [bytes]",
    "rate": "share of packets lost by chance",
    "mark": "packets from which on one is marked",
    "lag": "lag [acknowledgements]",
    "timeout_ms": "timeout [ms]",
    "slots": "reports that may wait",
}
SET = "set_"
# a map of colours that rises evenly in lightness, also for people with each kind of colour blindness
COLOURS = "cividis"
# ticks at each value where they are at most this many
MOST_TICKS = 9
# a cell without a value
MISSING = "#EEEEEE"


# ---- what is plotted


@dataclass(frozen=True)
class Surface:
    """The means of a metric over one parameter or two. `frame` has a row for each point: its `panel`, its `sender`, the
    parameters by their names, and `mean` and `ci95`, half of the 95 % interval over seeds."""

    frame: pd.DataFrame
    axes: Tuple[str, ...]
    metric: str

    def values(self, axis: str) -> List[Any]:
        """The values of a parameter: numbers in their order, others as they come."""
        found = list(dict.fromkeys(self.frame[axis]))
        return sorted(found) if is_numeric(found) else found


def is_numeric(values: Sequence[Any]) -> bool:
    """Whether values are numbers."""
    return all(isinstance(value, (int, float, np.number)) for value in values)


def surface_of(frame: pd.DataFrame, is_grouped: bool, metric: str, wanted: Sequence[str | None], path: str) -> Surface:
    """The means of a metric over parameters, of figures that `ccp metrics` wrote in the file at a path. A parameter
    that isn't named is the one in which cases differ, where there is one alone. A UsageError where there isn't."""
    known = parameters_of(frame)
    axes = tuple(axis_of(name, known, frame, option) for name, option in zip(wanted, ("--x", "--y")))
    if len(set(axes)) < len(axes):
        raise UsageError("--x and --y: both are %s" % axes[0])
    column = metric + "_mean" if is_grouped else metric
    if column not in frame or frame[column].isna().all():
        raise CcpError("%s: it has no value of %s: docs/metrics.md says which text gives it" % (path, metric))
    rows = frame.to_dict("records")
    places = frame.assign(
        panel=panels_of(frame, axes),
        sender=[sender_of(row, axes) for row in rows],
        **{axis: values_of(frame, axis) for axis in axes},
    )
    by = ["panel", "sender", *axes]
    if is_grouped:
        names = {metric + "_mean": "mean", metric + "_ci95": "ci95"}
        return Surface(places.rename(columns=names)[[*by, "mean", "ci95"]], axes, metric)
    found = metrics.groups(places.astype({metric: float}), by, [metric])
    names = {metric + "_mean": "mean", metric + "_ci95": "ci95"}
    return Surface(found.rename(columns=names)[[*by, "mean", "ci95"]], axes, metric)


def parameters_of(frame: pd.DataFrame) -> List[str]:
    """The columns that are parameters and in which the rows differ."""
    names = [name for name in (*AXES, "loss") if name in frame]
    names += [str(name) for name in frame if str(name).startswith(SET)]
    return [name for name in names if len(set(values_of(frame, name))) > 1]


def axis_of(name: str | None, known: Sequence[str], frame: pd.DataFrame, option: str) -> str:
    """The column of a parameter that an option names, also a control variable without what is before its name."""
    there = ", ".join(one.removeprefix(SET) if one.startswith(SET) else one for one in known) or "none"
    if name is None:
        if len(known) != 1:
            raise UsageError("%s COLUMN is expected: the cases differ in %s" % (option, there))
        return known[0]
    found = next((one for one in (name, SET + name) if one in known), None)
    if found is None:
        what = "the cases don't differ in it" if name in frame or SET + name in frame else "there is no such column"
        raise UsageError("%s %s: %s; they differ in %s" % (option, name, what, there))
    return found


def values_of(frame: pd.DataFrame, axis: str) -> List[Any]:
    """The values of a parameter, numbers where all are; one that isn't there is `none`."""
    if axis not in frame:
        return ["none"] * len(frame)
    found = pd.to_numeric(frame[axis], errors="coerce")
    if not found.isna().any():
        return [int(value) if value == int(value) else float(value) for value in found]
    return [str(value) if is_known(value) else "none" for value in frame[axis]]


def sender_of(row: Mapping[str, Any], axes: Sequence[str]) -> str:
    """A sender's label without the numbers of control variables that are parameters of the plot."""
    label = str(row.get("sender") or row.get("agent") or "")
    for axis in axes:
        if axis.startswith(SET) and is_known(row.get(axis)):
            label = label.replace("-%s%d" % (axis[len(SET) :], int(row[axis])), "", 1)
    return label


def panels_of(frame: pd.DataFrame, axes: Sequence[str]) -> List[str]:
    """The panel of each row: its trace, and what cases differ in at one place of the axes."""
    rows = frame.to_dict("records")
    names = [name for name in VARIED if name in frame and name not in axes]
    values = {name: values_of(frame, name) for name in (*names, *axes)}
    places = [(row.get("trace"), *(values[axis][at] for axis in axes)) for at, row in enumerate(rows)]
    seen: Dict[str, Dict[Any, set]] = {name: {} for name in names}
    for at, place in enumerate(places):
        for name in names:
            seen[name].setdefault(place, set()).add(values[name][at])
    varying = [name for name in names if any(len(some) > 1 for some in seen[name].values())]
    return [label_of(row.get("trace"), {name: values[name][at] for name in varying}) for at, row in enumerate(rows)]


def axis_label(axis: str) -> str:
    """What a parameter's axis is called."""
    return AXES.get(axis, axis[len(SET) :] if axis.startswith(SET) else axis)


# ---- lines


def lines(found: Surface, look: Look = Look()) -> List[Figure]:
    """The pages of lines over a parameter: a panel for each trace and what else differs, a line for each sender, with
    bars of the 95 % interval over seeds."""
    made = []
    for some in chunks(list(found.frame["sender"].unique()), MOST_SENDERS):
        inside = found.frame[found.frame["sender"].isin(list(some))]
        for part in chunks(list(inside["panel"].unique()), MOST_PANELS):
            figure, panels = pages.titled_page(look, pages.line_keys(some), part, SHOWN[found.metric].label)
            for panel, name in zip(panels, part):
                line_panel(panel, inside[inside["panel"] == name], list(some), found, look)
            made.append(figure)
    return made


def line_panel(panel: Axes, rows: pd.DataFrame, senders: List[str], found: Surface, look: Look) -> None:
    """A panel's lines. Those of senders are a little apart, so that their intervals don't hide each other."""
    (axis,), factor, values = found.axes, SHOWN[found.metric].factor, found.values(found.axes[0])
    is_number = is_numeric(values)
    for at, sender in enumerate(senders):
        own = rows[rows["sender"] == sender].dropna(subset=["mean"])
        across = [values.index(value) for value in own[axis]] if not is_number else list(own[axis])
        order = np.argsort(across, kind="stable")
        where, mean = np.array(across, dtype=float)[order], factor * own["mean"].to_numpy(dtype=float)[order]
        half = factor * np.nan_to_num(own["ci95"].to_numpy(dtype=float)[order])
        aside = (at - (len(senders) - 1) / 2) * 0.3 * look.points
        moved = offset_copy(panel.transData, panel.figure, x=aside, units="points")
        panel.plot(where, mean, **line_look(at), markersize=0.45 * look.points, transform=moved)
        wide = half > 0
        how = dict(fmt="none", color=line_look(at)["color"], capsize=0.25 * look.points, elinewidth=1)
        panel.errorbar(where[wide], mean[wide], half[wide], **how, transform=moved)
    highest = factor * (rows["mean"] + rows["ci95"].fillna(0)).max()
    panel.set(xlabel=axis_label(axis), ylim=(0, 1.08 * highest if highest > 0 else 1))
    parameter_axis(panel, values, is_number)


def parameter_axis(panel: Axes, values: Sequence[Any], is_number: bool) -> None:
    """The axis of a parameter: logarithmic where numbers span a decade, with ticks at the values where they are few."""
    if not is_number:
        panel.set(xticks=range(len(values)), xticklabels=values, xlim=(-0.5, len(values) - 0.5))
        return
    low, high = min(values), max(values)
    is_wide = low > 0 and high >= 10 * low
    if is_wide:
        pages.log_scale(panel, "x", low / 1.25, high * 1.25)
    else:
        panel.set_xlim(low - 0.06 * (high - low), high + 0.06 * (high - low))
    if len(values) <= MOST_TICKS and not is_wide:
        panel.set_xticks(values)


# ---- heat


def heat(found: Surface, look: Look = Look()) -> List[Figure]:
    """The pages of heat maps over two parameters: a panel for each sender of each trace, all with the same colours. A
    cell has its value, and half of its interval over seeds, where they fit."""
    titles = [title_of(*row) for row in zip(found.frame["panel"], found.frame["sender"])]
    frame = found.frame.assign(title=titles)
    known = SHOWN[found.metric].factor * frame["mean"].dropna()
    scale = matplotlib.colors.Normalize(known.min(), known.max() if known.max() > known.min() else known.min() + 1)
    made = []
    for part in chunks(list(dict.fromkeys(titles)), MOST_PANELS):
        figure, panels = pages.titled_page(look, {}, part, axis_label(found.axes[1]))
        add_colour_bar(figure, panels, scale, SHOWN[found.metric].label, look)
        for panel, title in zip(panels, part):
            heat_panel(panel, frame[frame["title"] == title], found, scale, look)
        made.append(figure)
    return made


def add_colour_bar(figure: Figure, panels: Sequence[Axes], scale: Any, label: str, look: Look) -> None:
    """Adds what the colours mean, on the right of all panels, which become narrower for it."""
    letter, places = look.points / look.width, [panel.get_position() for panel in panels]
    left, right = min(place.x0 for place in places), max(place.x1 for place in places)
    share = (right - 8 * letter - left) / (right - left)
    for panel, place in zip(panels, places):
        panel.set_position((left + share * (place.x0 - left), place.y0, share * place.width, place.height))
    low, high = min(place.y0 for place in places), max(place.y1 for place in places)
    beside = figure.add_axes((right - 6.6 * letter, low, 1.2 * letter, high - low))
    bar = figure.colorbar(matplotlib.cm.ScalarMappable(scale, COLOURS), cax=beside, label=label)
    bar.outline.set_linewidth(0.6)


def title_of(panel: str, sender: str) -> str:
    """The title of a panel of one sender."""
    return "\n".join(part for part in (panel, sender) if part)


def heat_panel(panel: Axes, rows: pd.DataFrame, found: Surface, scale: Any, look: Look) -> None:
    """The cells of a sender."""
    factor, across, upwards = SHOWN[found.metric].factor, *map(found.values, found.axes)
    cells = np.full((2, len(upwards), len(across)), np.nan)
    for x, y, mean, half in rows[[*found.axes, "mean", "ci95"]].itertuples(index=False):
        cells[:, upwards.index(y), across.index(x)] = factor * float(mean), factor * float(half)
    panel.grid(False)
    panel.set_facecolor(MISSING)
    panel.pcolormesh(np.ma.masked_invalid(cells[0]), cmap=COLOURS, norm=scale, linewidth=0)
    panel.set(xlabel=axis_label(found.axes[0]), xlim=(0, len(across)), ylim=(0, len(upwards)))
    for name, values in (("x", across), ("y", upwards)):
        step = max(1, -(-len(values) // MOST_TICKS))
        shown = range(0, len(values), step)
        panel.set(**{name + "ticks": [at + 0.5 for at in shown]})
        panel.set(**{name + "ticklabels": ["%g" % values[at] if is_numeric(values) else values[at] for at in shown]})
    write_cells(panel, cells, found.metric, scale, look)


def write_cells(panel: Axes, cells: np.ndarray, metric: str, scale: Any, look: Look) -> None:
    """Writes the values into their cells where they fit, black on light ones and white on dark ones."""
    decimals = SHOWN[metric].decimals
    texts = np.vectorize(lambda value: "" if np.isnan(value) else "%.*f" % (decimals, value))(cells[0])
    size = 0.8 * look.points
    wide, tall = (
        72 * side / count
        for side, count in zip(panel.get_window_extent().size / panel.figure.dpi, (cells.shape[2], cells.shape[1]))
    )
    if 0.62 * size * max(map(len, texts.ravel())) > 0.95 * wide or 1.2 * size > tall:
        return
    has_half = 2.4 * size <= tall and (np.nan_to_num(cells[1]) > 0).any()
    for (up, at), text in np.ndenumerate(texts):
        half = cells[1, up, at]
        more = "\n±%.*f" % (decimals, half) if has_half and half > 0 else ""
        colour = "black" if scale(cells[0, up, at]) > 0.55 else "white"
        if text:
            panel.text(at + 0.5, up + 0.5, text + more, ha="center", va="center", fontsize=size, color=colour)
