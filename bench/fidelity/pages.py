"""The tables and pictures that are made of the figures."""

from __future__ import annotations

from pathlib import Path
from typing import Any, Dict, Iterable, List, Mapping, Sequence, Tuple

import numpy as np
import pandas as pd
from ccp_tools import plots
from ccp_tools.plots import pages as layout
from ccp_tools.errors import CcpError
from ccp_tools.files import read_text
from matplotlib.figure import Figure

from . import spread
from .cases import ALGORITHMS, Outcome
from .limits import ORDER, Figures, Finding
from .results import cells_of

# the columns of a row, each a stack and, by the algorithm, its sender; those without figures have a -
SENDERS: List[Tuple[str, str]] = [("ccp", "%s"), ("ccp", "linux-%s"), ("ns-3", "%s"), ("linux", "%s")]
SHOWN = [("throughput_mbps", "%.2f"), ("lost", "%.0f"), ("queueing_mean_ms", "%.1f"), ("queueing_p95_ms", "%.0f")]
HEADS = ["Mbit/s", "lost packets", "wait", "p95"]
MARK = "<!-- made by bench/fidelity/run: %s -->"
END = "<!-- end -->"
LOOK = plots.Look("page")
# the times at which a picture has the windows
POINTS = 1000


# ---- tables


def value_text(figures: Figures, stack: str, sender: str, cell: Any, name: str, form: str) -> str:
    """A figure, with its range over the runs where they differ as it is shown."""
    if not figures.has(stack, sender, cell):
        return "-"
    value, least, most = (form % figures.of(stack, sender, cell, name + end) for end in ("", "_least", "_most"))
    return value if least == most else "%s (%s to %s)" % (value, least, most)


def table(heads: Sequence[str], rows: Iterable[Sequence[str]]) -> str:
    """A table in Markdown."""
    lines = [heads, ["---"] * len(heads), *rows]
    return "".join("| %s |\n" % " | ".join(line) for line in lines)


def grid(frame: pd.DataFrame, queues: Sequence[int] | None = None) -> str:
    """The figures of each case, with some queues alone where they are given."""
    figures, rows = Figures(frame), []
    for cell in cells_of(frame):
        if queues is not None and cell[1] not in queues:
            continue
        for algorithm in ALGORITHMS:
            values = []
            for name, form in SHOWN:
                texts = [value_text(figures, stack, sender % algorithm, cell, name, form) for stack, sender in SENDERS]
                values.append(" / ".join(texts))
            rows.append([*map(str, cell), algorithm, *values])
    return table(["trace", "queue", "ms", "sender", *HEADS], rows)


def orders(found: Iterable[Finding], changes: pd.DataFrame | None = None) -> str:
    """The mean waits by which senders are ranked, a row a cell and pair; then, where they are there, those over small
    changes of the cell, with their standard deviations, and in how many changes CUBIC waits longer."""
    heads = ["trace", "queue", "ms", "senders", "wait: Reno, CUBIC", "same order"]
    rows = []
    for one in found:
        if one.limit == ORDER:
            made = [*map(str, one.cell), one.sender, one.value, "yes" if one.holds else "no"]
            rows.append([*made, *order_over(changes, one)] if changes is not None else made)
    return table(heads + ([] if changes is None else ["over small changes", "CUBIC longer in"]), rows)


def order_over(changes: pd.DataFrame, one: Finding) -> List[str]:
    """The two last cells of a row of orders."""
    pair = one.sender.split(" and ")
    row = spread.row_of(changes, "ccp", pair[1], one.cell)
    count = "-" if row is None else "%d of %d" % (row["longer"], row["runs"])
    return [spread.wait_text(changes, "ccp", pair, one.cell), count]


def changes_table(changes: pd.DataFrame) -> str:
    """The means over small changes of each cell, with their standard deviations."""
    rows = []
    for row in changes.to_dict("records"):
        values = [(form + " ±" + form) % (row[name + "_mean"], row[name + "_sd"]) for name, form in SHOWN]
        rows.append([*(str(row[name]) for name in ("trace", "queue", "delay_ms", "stack", "sender")), *values])
    return table(["trace", "queue", "ms", "stack", "sender", *HEADS], rows)


def limits(found: Sequence[Finding]) -> str:
    """How many cells of each limit hold, and those that don't."""
    rows = []
    for limit, sender in dict.fromkeys((one.limit, one.sender) for one in found):
        of_limit = [one for one in found if (one.limit, one.sender) == (limit, sender)]
        broken = ["%s, %d packets, %d ms: %s" % (*one.cell, one.value) for one in of_limit if not one.holds]
        count = "%d of %d" % (len(of_limit) - len(broken), len(of_limit))
        rows.append([limit, "`%s`" % sender.replace(" and ", "` and `"), count, "; ".join(broken) or "-"])
    return table(["Limit", "Sender", "Holds in", "Not in"], rows)


def before_and_after(frame: pd.DataFrame) -> str:
    """What the senders like Linux's change: the losses of CUBIC, and the waits of Reno on a varying link."""
    figures, rows = Figures(frame), []
    shown = [("fixed", "cubic", "lost"), ("wave", "cubic", "lost")]
    shown += [("wave", "reno", "queueing_mean_ms"), ("wave", "reno", "queueing_p95_ms")]
    heads, forms = dict(zip(map(first, SHOWN), HEADS)), dict(SHOWN)
    for trace, algorithm, name in shown:
        for cell in cells_of(frame):
            if cell[0] == trace:
                texts = [
                    value_text(figures, stack, sender % algorithm, cell, name, forms[name]) for stack, sender in SENDERS
                ]
                rows.append([*map(str, cell), algorithm, heads[name], *texts])
    own = ["built-in", "like Linux", "ns-3", "Linux"]
    return table(["trace", "queue", "ms", "sender", "figure", *own], rows)


def first(pair: Tuple[str, str]) -> str:
    return pair[0]


def sections(frame: pd.DataFrame, found: Sequence[Finding], changes: pd.DataFrame | None = None) -> Dict[str, str]:
    """The parts of pages that are made of the figures, by their names."""
    made = {"grid": grid(frame, [100]), "orders": orders(found, changes)}
    return {**made, "before and after": before_and_after(frame)}


def with_sections(text: str, made: Mapping[str, str], place: str) -> str:
    """A page whose parts between their marks are replaced. A page without a mark is a CcpError."""
    names = [name for name in made if MARK % name in text]
    if not names:
        raise CcpError("%s: a line as %s is expected" % (place, MARK % next(iter(made))))
    for name in names:
        before, mark, rest = text.partition(MARK % name + "\n")
        _, end, after = rest.partition(END)
        if not end:
            raise CcpError("%s: the line %s is expected after %s" % (place, END, MARK % name))
        text = before + mark + made[name] + end + after
    return text


def write_page(path: Path, made: Mapping[str, str]) -> None:
    """Writes the parts of a page that are made of the figures."""
    path.write_text(with_sections(read_text(path), made, str(path)), encoding="utf-8")


# ---- pictures


def windows(outcomes: Sequence[Outcome], until_s: float | None = None) -> Figure:
    """The congestion windows of the runs of one case over time."""
    keys = layout.line_keys([label_of(one) for one in outcomes])
    for key in keys.values():
        key.set_marker("")
    figure, (panel,) = layout.page(LOOK, keys, [14.0])
    end = until_s or min(float(one.acks["now"].iloc[-1]) / 1e6 for one in outcomes)
    times = np.linspace(0, end, POINTS)
    for at, one in enumerate(outcomes):
        panel.plot(times, sampled(one.windows, times), **{**layout.line_look(at), "marker": ""})
    panel.set(xlabel="time [s]", ylabel="window [segments]", xlim=(0, end))
    panel.set_ylim(bottom=0)
    return figure


def sampled(found: pd.DataFrame, times: np.ndarray) -> np.ndarray:
    """The window at each time, in segments; before the first one it isn't known."""
    at = np.searchsorted(found["seconds"].to_numpy(), times, "right") - 1
    values = found["segments"].to_numpy().astype(float)
    return np.where(at < 0, np.nan, values[np.maximum(at, 0)])


def label_of(one: Outcome) -> str:
    """What a run is called in a picture."""
    return "%s, %s" % ({"linux": "Linux"}.get(one.stack, one.stack), one.sender)


def draw(outcomes: Sequence[Outcome], path: Path, until_s: float | None = None) -> None:
    """Draws the windows of the runs of one case to a file."""
    plots.save(plots.drawn(LOOK, lambda: [windows(outcomes, until_s)]), path, LOOK)
