"""Round-trip times of packets: their distributions, and each packet over time."""

from __future__ import annotations

from dataclasses import dataclass
from typing import Any, Dict, Iterable, Iterator, List, Mapping, Sequence, Tuple

import numpy as np
from matplotlib.axes import Axes
from matplotlib.figure import Figure

from .. import metrics
from ..errors import CcpError
from ..frames import AckFrame
from . import pages
from .pages import MOST_PANELS, MOST_SENDERS, Look, chunks, line_look
from .points import labels_of

# in how many layers the dots of all senders are drawn, each layer with another sender on top
LAYERS = 12
# the shares at which a distribution is plotted
SHARES = np.linspace(0, 1, 201)


@dataclass
class Named:
    """A flow of acknowledgements with the label of its group and its sender."""

    flow: AckFrame
    group: str
    sender: str


def named_flows(flows: Iterable[AckFrame], scenario: Mapping[str, Any] | None) -> List[Named]:
    """Flows with acknowledged packets, by the scenario's cases where it is given."""
    found = [flow for flow in flows if (flow.frame["packets_acked"] > 0).any()]
    if scenario is None:
        return [Named(flow, "", flow.case) for flow in found]
    own = {row["case"]: row for row in metrics.columns_of(scenario)[1]}
    rows = [known_case(own, flow.case) for flow in found]
    return [Named(flow, label, str(row["sender"])) for flow, label, row in zip(found, labels_of(rows), rows)]


def known_case(own: Mapping[str, Any], name: str) -> Any:
    """The case of a name. A CcpError where the scenario has none."""
    if name not in own:
        raise CcpError("the scenario has no case %s" % name)
    return own[name]


def trips_of(flow: AckFrame) -> Tuple[np.ndarray, np.ndarray]:
    """When each packet was acknowledged, in seconds, and its round-trip time, in milliseconds."""
    is_packet = flow.frame["packets_acked"].to_numpy() > 0
    return flow.frame["now"].to_numpy()[is_packet] / 1e6, flow.frame["rtt_sample_us"].to_numpy()[is_packet] / 1e3


def parts_of(flows: Sequence[Named], most: int) -> Iterator[Tuple[List[str], List[str], List[Named]]]:
    """The senders, the groups and the flows of each page, which has at most `most` groups."""
    for some in chunks(list(dict.fromkeys(one.sender for one in flows)), MOST_SENDERS):
        inside = [one for one in flows if one.sender in some]
        for part in chunks(list(dict.fromkeys(one.group for one in inside)), most):
            yield list(some), list(part), inside


def cdf(flows: Sequence[Named], look: Look = Look()) -> List[Figure]:
    """The pages of the distributions of round-trip times: a panel a group."""
    made = []
    for senders, groups, inside in parts_of(flows, MOST_PANELS):
        figure, panels = pages.titled_page(look, pages.line_keys(senders), groups, "share of packets")
        for panel, group in zip(panels, groups):
            found = [(senders.index(one.sender), trips_of(one.flow)[1]) for one in inside if one.group == group]
            draw_distributions(panel, found)
            panel.set(xlabel="round-trip time [ms]", ylim=(0, 1.02))
            pages.from_zero(panel, "x", np.concatenate([trips for _, trips in found]))
        made.append(figure)
    return made


def draw_distributions(panel: Axes, found: Iterable[Tuple[int, np.ndarray]], is_upright: bool = False) -> None:
    """A line for each sender: the share of packets up to each time, or with is_upright the time over the share."""
    for at, trips in found:
        values = np.quantile(trips, SHARES, method="inverted_cdf")
        how = dict(markevery=(20 + 8 * at, 70), **line_look(at))
        if is_upright:
            panel.plot(SHARES, values, drawstyle="steps-post", **how)
        else:
            panel.plot(values, SHARES, drawstyle="steps-pre", **how)


def delay(flows: Sequence[Named], look: Look = Look(), until_s: float | None = None) -> List[Figure]:
    """The pages of the round-trip time of each packet over time, with the distribution beside it: a row a group."""
    made = []
    for senders, groups, inside in parts_of(flows, 4):
        shape: Dict[str, Any] = dict(gap=2.2, apart=1.4, has_titles=True, widths=(3, 1), sharey="row")
        figure, panels = pages.page(look, pages.line_keys(senders), [9.5] * len(groups), 2, **shape)
        for over, beside, group in zip(panels[::2], panels[1::2], groups):
            delay_row(over, beside, [one for one in inside if one.group == group], senders, until_s)
            over.set_title(group.replace("\n", ", "))
        panels[-2].set_xlabel("virtual time [s]")
        panels[-1].set_xlabel("share of packets")
        made.append(figure)
    return made


def draw_dots(panel: Axes, found: Sequence[Tuple[int, np.ndarray, np.ndarray]]) -> None:
    """A dot for each packet of each sender: its number, the times and the values. Each layer has every LAYERS-th dot of
    all senders, who take turns to be on top, so that none hides the others."""
    for layer in range(LAYERS):
        turn = layer % len(found)
        for at, when, values in [*found[turn:], *found[:turn]]:
            dots = {**line_look(at), "linestyle": "", "marker": ".", "markersize": 1.2}
            # below the marks, so that all dots of a panel are drawn one after another, into one image
            panel.plot(when[layer::LAYERS], values[layer::LAYERS], rasterized=True, zorder=1.9, **dots)


def delay_row(over: Axes, beside: Axes, flows: Sequence[Named], senders: List[str], until_s: float | None) -> None:
    """Every packet is a dot. The dots are one image also in a vector file, which would be huge with them."""
    found = [(senders.index(one.sender), *trips_of(one.flow)) for one in flows]
    if until_s:
        found = [(at, times[times <= until_s], trips[times <= until_s]) for at, times, trips in found]
    found = [one for one in found if len(one[1])]
    if not found:
        return
    draw_dots(over, found)
    for at, when, values in found:
        look, every = line_look(at), max(1, len(when) // 10)
        marks = {**look, "linestyle": "", "markeredgecolor": "white", "markeredgewidth": 0.5}
        over.plot(when, values, markevery=(at * every // 8, every), **marks)
    draw_distributions(beside, ((at, values) for at, _, values in found), is_upright=True)
    over.set(ylabel="round-trip time [ms]", xlim=(0, max(when[-1] for _, when, _ in found)))
    pages.from_zero(over, "y", np.concatenate([values for _, _, values in found]))
    beside.set(xlim=(0, 1.02), xticks=(0, 0.5, 1))
