"""Plots what `ccp` and `ccp metrics` print. A file is an SVG, a PNG, a PDF or an EPS, by the ending of its name.

    ccp plot bars [--metrics LIST] METRICS FILE..
    ccp plot scatter [--x METRIC] [--y METRIC] METRICS FILE..
    ccp plot lines [--metric METRIC] [--x COLUMN] METRICS FILE..
    ccp plot heat [--metric METRIC] --x COLUMN --y COLUMN METRICS FILE..
    ccp plot flows [--scenario SCENARIO] [--acks-file ACKS] [--flows 0,2] TIMELINE FILE..
    ccp plot delay --scenario SCENARIO [--flows 0,2] ACKS FILE..
    ccp plot cdf [--scenario SCENARIO] [--flows 0,2] ACKS FILE..
    ccp plot table [--scenario SCENARIO] [--timeline TIMELINE] TABLE FILE..
    ccp plot shares [--scenario SCENARIO] [--window-ms W] ACKS FILE..
    ccp plot shares [--steps 50] SCENARIO FILE..

`bars` and `scatter` plot what `ccp metrics` writes as JSON or CSV. Over seeds bars are means with 95 % intervals, and
`scatter` has an ellipse of one standard deviation for each sender. The capacity of the link is grey behind the bars of
throughput. The delay axis of `scatter` is reversed, so that up and right is better; it is logarithmic where delays span
a decade, and two strokes mark an axis that doesn't begin at 0.

`lines` plots a metric over a parameter: a column of the metrics, as queue, delay_ms or rate, or a control variable of
--set. There is a line for each sender, with 95 % intervals over seeds, and a panel for each trace and what else
differs. `heat` plots it over two parameters, as colours with the values in the cells, a panel for each sender.

`flows` shows flows of `timeline` or `live` over time: throughput with the link's capacity, window, round-trip time, and
marks where packets were lost, where there was a timeout, and where the agent changed the program. With the
acknowledgements its values are means of windows of time, else those of the reports. A line breaks where reports were
held, and in a gap of the trace. `delay` shows the round-trip time of each packet over time beside its distribution,
`cdf` the distributions alone, and `table` throughput, loss and queueing delay of a table. `shares` shows what each flow
of a shared link got over time, its share, Jain's index over the flows that have started and not ended, and how long the
packets waited in the queue, from a text of `shared-acks`; its scenario gives the queue, the link's capacity and when
flows start. Of a scenario alone it runs `ccp shared` once for each step, and shows the shares and Jain's index.

--size column (252 points wide) and --size page (516) are for papers, with small text; WxH is in points, 72 to an inch.
A page has at most 8 senders and 32 bars; what doesn't fit comes on further pages: of a PDF in the same file, else in
files with a number, which are named on standard error."""

from .command import add_arguments, add_look, look_of, run
from .over_time import flows
from .packets import cdf, delay, named_flows
from .pages import FONT, KINDS, MOST_SENDERS, Look, drawn, load_writer, save
from .parameters import Surface, heat, lines, surface_of
from .points import bars, check_metrics, overall, points_of, said_of, scatter
from .shared_link import link_page, shared_runs, shared_tables, shares, shares_of_acks

__all__ = [
    "FONT",
    "KINDS",
    "MOST_SENDERS",
    "Look",
    "Surface",
    "add_arguments",
    "add_look",
    "bars",
    "cdf",
    "check_metrics",
    "delay",
    "drawn",
    "flows",
    "heat",
    "lines",
    "link_page",
    "load_writer",
    "look_of",
    "named_flows",
    "overall",
    "points_of",
    "run",
    "said_of",
    "save",
    "scatter",
    "shared_runs",
    "shared_tables",
    "shares",
    "shares_of_acks",
    "surface_of",
]
