"""Pages of panels: their size and style, their legend, their axes, and their files."""

from __future__ import annotations

import math
import os
import re
from dataclasses import dataclass
from pathlib import Path
from typing import Any, Callable, Collection, Dict, List, Mapping, Sequence, Tuple, TypeVar

import matplotlib
import numpy as np
from matplotlib import font_manager
from matplotlib.axes import Axes
from matplotlib.backend_bases import get_registered_canvas_class
from matplotlib.figure import Figure
from matplotlib.lines import Line2D
from matplotlib.patches import Patch
from matplotlib.text import Text
from matplotlib.textpath import TextPath
from matplotlib.ticker import FuncFormatter, LogLocator, MaxNLocator, NullLocator

from ..errors import CcpError
from ..files import name_of, reason_of

Item = TypeVar("Item")
STYLE, PAPER = (
    dict(matplotlib.rc_params_from_file(Path(__file__).with_name(name), use_default_template=False))
    for name in ("ccp.mplstyle", "paper.mplstyle")
)
CYCLE = list(STYLE["axes.prop_cycle"])
# a line that is no sender's
PLAIN = {"color": "black", "linestyle": "-", "marker": ""}
# the hatch of a bar, and how much of its colour is on its face
FILLS = [("", 1.0), ("///", 0.0), ("\\\\\\", 0.0), ("", 0.3), ("xxx", 0.0), ("...", 0.0), ("---", 0.0), ("++", 0.3)]
MOST_SENDERS, MOST_PANELS = len(CYCLE), 12
GREY, FONT = "#D9D9D9", "DejaVu Sans"
# the width of a file in points
SIZES = {"screen": 900, "page": 516, "column": 252}
# what each kind of file says of itself; without the date, equal plots are equal files
METADATA: Dict[str, Dict[str, Any]] = {
    ".svg": {"Date": None, "Creator": "ccp"},
    ".png": {"Software": "ccp"},
    ".pdf": {"CreationDate": None, "Creator": "ccp", "Producer": None},
    ".eps": {"Creator": "ccp"},
}
KINDS = tuple(METADATA)
# the same as it stands in a file; a PDF has all pages in one
MARKS = {".svg": b"<dc:title>ccp</dc:title>", ".png": b"Software\0ccp", ".eps": b"%%Creator: ccp"}


@dataclass(frozen=True)
class Look:
    """How a plot looks: a size of SIZES or width and height in points, a title, a font's family, and its size in
    points."""

    size: str | Tuple[int, int] = "screen"
    title: str = ""
    font: str = FONT
    font_points: float | None = None

    @property
    def width(self) -> float:
        """The width of a file in points."""
        return SIZES[self.size] if isinstance(self.size, str) else self.size[0]

    @property
    def points(self) -> float:
        """The size of the text: small where the plot is small."""
        sizes = ((700, 12.0), (400, 8.0), (0, 7.0))
        return self.font_points or next(points for least, points in sizes if self.width >= least)

    @property
    def letters(self) -> float:
        """About how many letters fit side by side."""
        return (self.width - 7 * self.points) / (0.62 * self.points)

    def settings(self) -> Dict[str, Any]:
        """The settings of matplotlib. A font that isn't installed is a CcpError."""
        try:
            font_manager.findfont(self.font, fallback_to_default=False)
        except ValueError:
            raise CcpError("the font %s isn't installed: `fc-list : family` lists those that are" % self.font) from None
        fonts = list(dict.fromkeys([self.font, FONT]))
        text = {"font.family": fonts, "font.size": self.points, "lines.markersize": 0.5 * self.points}
        return {**STYLE, **(PAPER if self.points < 10 else {}), **text}


def chunks(items: Sequence[Item], size: int) -> List[Sequence[Item]]:
    """Parts of at most a size, as even as can be."""
    even = math.ceil(len(items) / math.ceil(len(items) / size)) if items else size
    return [items[at : at + even] for at in range(0, len(items), even)]


def line_look(at: int) -> Dict[str, Any]:
    """The colour, the strokes and the mark of a sender's line, by its number from 0."""
    return dict(CYCLE[at % MOST_SENDERS])


def mark_look(at: int) -> Dict[str, Any]:
    """Hollow marks, so that one on another is seen too."""
    return {**line_look(at), "linestyle": "", "markerfacecolor": "none", "markeredgewidth": 1.6}


def bar_look(at: int) -> Dict[str, Any]:
    """The face, the edge and the hatch of a sender's bar, by its number from 0."""
    hatch, share = FILLS[at % MOST_SENDERS]
    colour = matplotlib.colors.to_rgb(line_look(at)["color"])
    return {"facecolor": [1 - share * (1 - part) for part in colour], "edgecolor": colour, "hatch": hatch}


def line_keys(names: Sequence[str]) -> Dict[str, Any]:
    """The handles of a legend of lines, a name each."""
    return {name: Line2D([], [], **line_look(at)) for at, name in enumerate(names)}


def link_key() -> Patch:
    """The handle of the link's capacity in a legend."""
    return Patch(facecolor=GREY, edgecolor="#AAAAAA")


def legend_columns(look: Look, names: Collection[str]) -> int:
    """How many entries of a legend fit side by side."""
    letters = max(map(len, names), default=0)
    return max(1, min(len(names), int((look.width / look.points - 2) // (0.62 * letters + 4.5))))


def page(
    look: Look,
    legend: Mapping[str, Any],
    heights: Sequence[float],
    columns: int = 1,
    *,
    gap: float = 0.8,
    below: float = 2.9,
    apart: float = 0,
    has_titles: bool = False,
    widths: Sequence[float] | None = None,
    **shared: Any,
) -> Tuple[Figure, List[Axes]]:
    """A figure with its title, its legend (a handle a name), and its panels row by row. `heights` are those of the
    rows, `gap` is the space between them and `below` that under the last one, in lines of text; `apart` is the space
    between columns in letters. `shared` are sharex and sharey of subplots. A CcpError where the size is too small."""
    line, points, width, rows = 1.45 * look.points, look.points, look.width, len(heights)
    beside, head = legend_columns(look, legend), 1.8 if look.title else 0.5
    above = head + 1.15 * math.ceil(len(legend) / beside) + (1.7 if has_titles else 0.5)
    gap += 1.5 if has_titles else 0
    around = above + gap * (rows - 1) + below
    height = line * (around + sum(heights)) if isinstance(look.size, str) else look.size[1]
    # the ticks and the space around their labels don't shrink with the text
    left = 12 + 4.4 * points
    tall, wide = (height - line * around) / rows, (width - left - points * (1.2 + (columns - 1) * apart)) / columns
    if tall < 20 or wide < 40:
        text = "%gx%g points are too small for the panels and the legend: a greater --size is needed"
        raise CcpError(text % (width, height))
    figure = Figure(figsize=(width / 72, height / 72))
    grid = {"left": left / width, "right": 1 - 1.2 * points / width, "wspace": apart * points / wide}
    grid.update(top=1 - above * line / height, bottom=below * line / height, hspace=gap * line / tall)
    ratios: Dict[str, Any] = {"height_ratios": heights, "width_ratios": widths or [1] * columns}
    panels = figure.subplots(rows, columns, squeeze=False, gridspec_kw={**grid, **ratios}, **shared).ravel().tolist()
    for panel in panels:
        plain_scales(panel)
    if look.title:
        figure.suptitle(look.title, y=1 - 0.3 * line / height, va="top")
    anchor = (0.5, 1 - head * line / height)
    figure.legend(list(legend.values()), list(legend), loc="upper center", ncol=beside, bbox_to_anchor=anchor)
    return figure, panels


def plain_scales(panel: Axes) -> None:
    """Gives both axes at most seven ticks, at round numbers that are written plainly."""
    for axis in (panel.xaxis, panel.yaxis):
        axis.set_major_locator(MaxNLocator(6, steps=[1, 2, 2.5, 5, 10]))
        axis.set_major_formatter(FuncFormatter(lambda value, _: "%g" % round(value, 9)))


def titled_page(
    look: Look, legend: Mapping[str, Any], groups: Sequence[str], ylabel: str, apart: float = 5.5
) -> Tuple[Figure, List[Axes]]:
    """A page with a panel a group, with titles, in as many columns as fit."""
    count = len(groups)
    columns = min(max(1, int(look.width // (20 * look.points))), count if count < 4 else 2 if count == 4 else 3)
    rows = -(-count // columns)
    figure, panels = page(look, legend, [13.0] * rows, columns, gap=3.2, apart=apart, has_titles=True)
    for at, (panel, group) in enumerate(zip(panels, groups)):
        panel.set(title=group.replace("\n", ", "), ylabel=ylabel if at % columns == 0 else "")
    for panel in panels[count:]:
        panel.set_visible(False)
    return figure, panels[:count]


def log_scale(panel: Axes, name: str, least: float, most: float) -> None:
    """Makes the axis x or y logarithmic, with plain numbers at 1, 2 and 5 of each power of ten."""
    panel.set(**{name + "scale": "log", name + "lim": (least, most)})
    axis = getattr(panel, name + "axis")
    axis.set_major_locator(LogLocator(subs=(1, 2, 5)))
    axis.set_major_formatter(FuncFormatter(lambda value, _: "%g" % value))
    axis.set_minor_locator(NullLocator())


def from_zero(panel: Axes, name: str, values: np.ndarray, most: float | None = None) -> None:
    """Has the axis x or y begin at 0, or makes it logarithmic where a few values are far above the others, as after a
    gap. It ends at `most`, or above the greatest value."""
    high = float(values.max(initial=0))
    if len(values) and high > 8 * np.median(values) and values.min() > 0:
        log_scale(panel, name, 0.85 * values.min(), 1.2 * high)
    else:
        panel.set(**{name + "lim": (0, most or 1.06 * high or 1)})


def mark_cut(panel: Axes) -> None:
    """Two strokes at the foot of a value axis that doesn't begin at 0. Their size is the text's, so that they end
    before the numbers of the axis."""
    size = 0.8 * matplotlib.rcParams["font.size"]
    stroke: Dict[str, Any] = dict(marker=[(-1, -0.5), (1, 0.5)], markersize=size, markeredgewidth=1, clip_on=False)
    panel.plot([0, 0], [0.025, 0.055], color="black", linestyle="", transform=panel.transAxes, **stroke)


# ---- labels


def fit_labels(figure: Figure) -> None:
    """Breaks the labels of value axes that are longer than their panels, and makes them smaller where that doesn't do,
    so that none reaches into another one or out of the figure."""
    height = 72 * figure.get_figheight()
    middles = {panel: height * (panel.get_position().y0 + panel.get_position().y1) / 2 for panel in figure.axes}
    for panel, middle in middles.items():
        text, label = panel.get_ylabel(), panel.yaxis.label
        # of a panel above or below to the middle between the two, of the figure to its edge
        apart = [abs(other - middle) for other in middles.values() if abs(other - middle) > 1]
        room = min([*apart, 2 * middle, 2 * (height - middle)]) - 0.3 * label.get_fontsize()
        if text and length_of(text, label) > room:
            broken = min(broken_texts(text), key=lambda lines: length_of(lines, label))
            label.set_text(broken)
            label.set_fontsize(label.get_fontsize() * max(0.6, min(1, room / length_of(broken, label))))


def broken_texts(text: str) -> List[str]:
    """A text with one of its blanks as the end of a line, or the text alone."""
    blanks = [at for at, letter in enumerate(text) if letter == " "]
    return [text[:at] + "\n" + text[at + 1 :] for at in blanks] or [text]


def length_of(text: str, label: Text) -> float:
    """The length of the longest line of a text in points, with the font of a label. It is that of the outlines' points,
    which a font has where an outline is widest; to look for extrema of the curves takes a quarter of a plot's time."""
    font, size = label.get_fontproperties(), label.get_fontsize()
    outlines = [TextPath((0, 0), line, size=size, prop=font) for line in text.split("\n")]
    return max(float(np.ptp(one.vertices[one.codes != TextPath.CLOSEPOLY, 0])) for one in outlines)


# ---- files


def kind_of_file(path: str | Path) -> str:
    """The ending of a plot's name, which has to be one of KINDS."""
    kind = Path(path).suffix
    if kind not in KINDS:
        raise CcpError("%s: the name of a plot ends with .svg, .png, .pdf or .eps" % name_of(path))
    return kind


def load_writer(kind: str) -> None:
    """Imports what writes a kind of file, which saving imports too: before a fork, each process has it."""
    get_registered_canvas_class(kind[1:])


def page_path(path: str | Path, number: int) -> Path:
    """The file of a page, from 1: plot.svg, plot-2.svg, .."""
    path = Path(path)
    return path if number == 1 else path.with_name("%s-%d%s" % (path.stem, number, path.suffix))


def save(pages: Sequence[Figure], path: str | Path, look: Look) -> List[Path]:
    """Writes pages to a file, or to files with numbers where its kind has one page, and returns their names."""
    kind = kind_of_file(path)
    names = [page_path(path, number + 1) for number in range(1 if kind == ".pdf" else len(pages))]
    for name in names[1:]:
        check_further(name, kind)
    try:
        with matplotlib.rc_context(look.settings()):
            if kind == ".pdf":
                from matplotlib.backends.backend_pdf import PdfPages  # its fonts' library takes long to import

                with PdfPages(path, metadata=METADATA[kind]) as file:
                    for one in pages:
                        file.savefig(one)
            for name, one in zip(names, pages if kind != ".pdf" else ()):
                one.savefig(name, dpi=144, metadata=METADATA[kind])
                if kind == ".svg":
                    add_fonts(name)
    except OSError as error:
        raise CcpError("%s: %s" % (name_of(path), reason_of(error))) from None
    return names


def check_further(path: Path, kind: str) -> None:
    """Refuses the file of a further page, which no argument names, where there is one that isn't a plot of ccp."""
    try:
        is_made = not os.path.lexists(path) or not path.is_symlink() and MARKS[kind] in path.read_bytes()
    except OSError as error:
        raise CcpError("%s: %s" % (name_of(path), reason_of(error))) from None
    if not is_made:
        raise CcpError("%s: a further page has this name, and the file is no plot of ccp: move it" % name_of(path))


def add_fonts(path: Path) -> None:
    """Gives an SVG's text a list of fonts, so that it looks alike where the first one isn't installed."""
    text = path.read_text(encoding="utf-8")
    path.write_text(re.sub(r"(font: [^;\"]*'[^']+')(?=[;\"])", r"\1, Verdana, sans-serif", text), encoding="utf-8")


def drawn(look: Look, work: Callable[[], List[Figure]]) -> List[Figure]:
    """Pages that are made with the settings of a look."""
    with matplotlib.rc_context(look.settings()):
        made = work()
        for figure in made:
            fit_labels(figure)
            for axis in (axis for panel in figure.axes for axis in (panel.xaxis, panel.yaxis)):
                if not axis.get_label_text():
                    # a place that needn't be found: that takes as long as all ticks of the axis
                    axis.set_label_coords(0, 0)
        return made
