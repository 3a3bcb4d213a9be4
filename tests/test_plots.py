"""The plots: each kind in each form of file, what they show, and what they refuse."""
from __future__ import annotations

import json
import re
from pathlib import Path

import pytest
from inside import run_inside
from support import EXAMPLES, TRACES, command, needs, require

pytestmark = needs("import matplotlib", "import pandas")
require("matplotlib")
pd = require("pandas")
np = require("numpy")

from matplotlib.backends.backend_agg import FigureCanvasAgg  # noqa: E402

from ccp_tools import plots, program as programs, scenario  # noqa: E402
from ccp_tools.frames import AckFrame, acks_in, read_timeline  # noqa: E402
from ccp_tools.plots import packets as packets_of_plots, series  # noqa: E402
from ccp_tools.plots.points import spread_of  # noqa: E402

CASE = {"trace": "t", "mss": 1000, "queue": 10, "delay_us": 20000, "timeout_us": 1000000}
SCENARIO = {
    "version": 1,
    "traces": {"t": "10\n"},
    "cases": [
        {"name": "a", "agent": "reno", "acks": 7, **CASE},
        {"name": "b", "agent": "cubic", "acks": 6, **CASE},
    ],
}
FIELDS = "acked=%d loss=%d rtt=%d timeout=%d"
# the second flow's program has no field that a plot knows but x; a gap comes before the last report of the first
FLOWS = """flow 0 case=a agent=reno
epoch 0 program=0 at=0 cwnd=4000
epoch 1 program=1 at=6 cwnd=9000
fault epoch=0 ack=3 kind=Overflow at=1:20
ticket 0 report program=0 epoch=0 span=0..2 taken=2 answered=2 reply=none now=60000 cwnd=5000 rate=0 %s
ticket 1 report program=0 epoch=0 span=2..4 taken=4 answered=4 reply=none now=80000 cwnd=7000 rate=0 %s
ticket 2 report program=0 epoch=0 span=4..6 taken=6 answered=6 reply=change:1:9000:9000 now=100000 cwnd=18000 rate=0 %s
ticket 3 report program=1 epoch=1 span=6..7 taken=7 answered=7 reply=update:9500 now=600000 cwnd=9000 rate=0 %s
end acks=7 reports=4 held=2 faults=1 tail=7..7 stopped=no cwnd=9500 rate=0 %s
flow 1 case=b agent=cubic
epoch 0 program=3 at=0 cwnd=4000
ticket 0 report program=3 epoch=0 span=0..6 taken=6 answered=6 reply=none now=80000 cwnd=6000 rate=0 x=1
end acks=6 reports=1 held=0 faults=0 tail=6..6 stopped=no cwnd=6000 rate=0 x=0
""" % (
    FIELDS % (2000, 0, 30000, 0),
    FIELDS % (2000, 0, 30000, 0),
    FIELDS % (2000, 2, 50000, 1),
    FIELDS % (1000, 0, 40000, 0),
    FIELDS % (0, 0, 40000, 0),
)
PACKET = "bytes_acked=1000 packets_acked=1 now=%d rtt_sample_us=%d\n"
ACKS = "".join(
    [
        "flow 0 case=a agent=reno\n",
        *(PACKET % (30000 + 10000 * at, 30000 + 5000 * at) for at in range(6)),
        "lost_pkts_sample=2 now=600000 rtt_sample_us=55000 was_timeout=1\n",
        "flow 1 case=b agent=cubic\n",
        *(PACKET % (30000 + 10000 * at, 20000) for at in range(6)),
    ]
)
METRICS = {
    "cases": [
        {
            "case": "%s-%s" % (trace, sender),
            "trace": trace,
            "sender": sender,
            "queue": 100,
            "throughput_mbps": 10 + at,
            "utilization": 0.8,
            "loss_rate": 0.01 * at,
            "queueing_p95_ms": None if at == 1 else 20.0 * (at + 1),
        }
        for trace in ("near", "far")
        for at, sender in enumerate(("reno", "cubic", "mine"))
    ]
}
BEGINNINGS = {".svg": b"<?xml", ".png": b"\x89PNG", ".pdf": b"%PDF", ".eps": b"%!PS-Adobe-3.0 EPSF"}


@pytest.fixture
def files(tmp_path: Path):
    part = {"groups": [{"by": {"sender": "a"}, "n": 1, "metrics": {"power": {"mean": 1}}}]}
    made = {"scenario": json.dumps(SCENARIO), "flows": FLOWS, "acks": ACKS, "metrics": json.dumps(METRICS)}
    made.update(words="case,sender,power\na,b,high\n", part=json.dumps(part))
    for name, text in made.items():
        (tmp_path / name).write_text(text)
    return {**{name: str(tmp_path / name) for name in made}, "table": str(EXAMPLES / "campaign.out")}


def texts_of(path: Path):
    return [text.strip() for text in re.findall(r"<text[^>]*>([^<]*)</text>", path.read_text())]


@pytest.mark.parametrize(
    "words",
    [
        "bars {metrics}",
        "scatter {metrics}",
        "flows {flows}",
        "flows --scenario {scenario} --acks-file {acks} {flows}",
        "delay --scenario {scenario} {acks}",
        "cdf {acks}",
        "table {table}",
    ],
)
def test_each_kind_in_each_form(files, tmp_path, words):
    plain = [tmp_path / ("plot" + kind) for kind in BEGINNINGS]
    made = run_inside("plot", *(word.format(**files) for word in words.split()), *plain)
    assert made.status == 0, made.errors
    for path in plain:
        assert path.read_bytes().startswith(BEGINNINGS[path.suffix]) and path.stat().st_size > 2000
    again = tmp_path / "again.svg"
    command("plot", *(word.format(**files) for word in words.split()), again)
    assert again.read_bytes() == plain[0].read_bytes()


def test_bars_show_values_capacity_and_groups(files, tmp_path):
    path = tmp_path / "bars.svg"
    assert command("plot", "bars", "--metrics", "throughput_mbps,queueing_p95_ms", files["metrics"], path).status == 0
    shown = texts_of(path)
    assert {"near", "far", "reno", "cubic", "mine", "link", "10.0", "12.0", "20.0", "none"} <= set(shown), shown


def test_groups_over_seeds():
    rows = [
        dict(row, seed=seed, throughput_mbps=10 + at + seed)
        for at, row in enumerate(METRICS["cases"])
        for seed in (1, 2, 3)
    ]
    points = plots.points_of(pd.DataFrame(rows))
    assert points.frame[["group", "sender"]].to_numpy().tolist()[:2] == [["near", "reno"], ["near", "cubic"]]
    mean, half, deviation = points.frame.iloc[0][["throughput_mbps_" + kind for kind in ("mean", "ci95", "sd")]]
    assert (mean, deviation) == (12, 1) and half == pytest.approx(4.30265 / 3**0.5, rel=1e-4)
    names = ("queueing_p95_ms", "throughput_mbps")
    assert spread_of(points, points.frame.iloc[0], names).tolist() == [[0, 0], [0, 1]]
    single = plots.points_of(pd.DataFrame(METRICS["cases"]))
    first = single.frame.iloc[0]
    assert first["throughput_mbps_mean"] == 10 and pd.isna(first["throughput_mbps_ci95"])
    assert not spread_of(single, first, names).any()


def test_axes_of_a_scatter():
    """The delay axis is reversed, logarithmic where delays span a decade, and a throughput far from 0 is marked."""
    rows = [
        {**METRICS["cases"][0], "sender": name, "case": name, "throughput_mbps": 11 + at, "queueing_p95_ms": delay}
        for at, (name, delay) in enumerate({"a": 2.0, "b": 40.0}.items())
    ]
    panel = plots.scatter(plots.points_of(pd.DataFrame(rows)))[0].axes[0]
    assert panel.xaxis_inverted() and panel.get_xscale() == "log" and panel.get_ylim()[0] > 0
    assert [len(line.get_xdata()) for line in panel.lines if not line.get_clip_on()] == [2]  # the strokes
    rows[1]["queueing_p95_ms"] = 4.0
    panel = plots.scatter(plots.points_of(pd.DataFrame(rows)))[0].axes[0]
    assert panel.get_xscale() == "linear" and panel.get_xlim()[1] == 0


def test_pages_and_sizes(files, tmp_path):
    many = [{**METRICS["cases"][0], "trace": "t%d" % at, "case": "c%d" % at} for at in range(40)]
    Path(files["metrics"]).write_text(json.dumps({"cases": many}))
    made = command("plot", "bars", files["metrics"], tmp_path / "bars.svg")
    assert made.status == 0 and "3 pages" in made.errors and (tmp_path / "bars-3.svg").exists()
    (tmp_path / "bars-2.svg").write_text("mine")
    words = ["plot", "bars", files["metrics"], tmp_path / "bars.svg"]
    made = command(*words)
    assert made.status == 1 and "bars-2.svg: a further page has this name" in made.errors
    assert (tmp_path / "bars-2.svg").read_text() == "mine"
    (tmp_path / "bars-2.svg").unlink()
    assert command(*words).status == command(*words).status == 0
    for size, width in (("column", "252pt"), ("page", "516pt"), ("300x200", "300pt")):
        path = tmp_path / "cdf.svg"
        assert command("plot", "cdf", "--size", size, files["acks"], path).status == 0
        assert 'width="%s"' % width in path.read_text()


@pytest.mark.parametrize("size", [(252, 170), (252, 200), "column", "screen"])
def test_no_label_reaches_into_another(size):
    """Nor out of the figure: a long one is broken, and then made smaller."""
    look = plots.Look(size)
    names = ["throughput_mbps", "loss_rate", "queueing_p95_ms"]
    made = plots.drawn(look, lambda: plots.bars(plots.points_of(pd.DataFrame(METRICS["cases"])), names, look))
    figure = made[0]
    renderer = FigureCanvasAgg(figure).get_renderer()
    figure.draw(renderer)
    boxes = sorted((one.yaxis.label.get_window_extent(renderer) for one in figure.axes), key=lambda box: box.y0)
    assert all(below.y1 < above.y0 for below, above in zip(boxes, boxes[1:])) and boxes[0].y0 > 0
    assert boxes[-1].y1 < figure.bbox.height and all(box.x0 > -2 for box in boxes)
    assert any("\n" in one.get_ylabel() for one in figure.axes) == (size not in ("column", "screen"))


def test_a_line_breaks_where_reports_were_held_and_in_a_gap():
    from ccp_tools import frames

    reports = frames.read_timeline(FLOWS).reports
    assert list(series.breaks_in(reports[reports["flow"] == 0])) == [False, False, False, True]
    held = reports[reports["flow"] == 0].copy()
    held.loc[held.index[1], "first"] = 3
    assert list(series.breaks_in(held))[1]


@pytest.mark.parametrize(
    "words, status, error",
    [
        ("bars {metrics} plot.gif", 1, "ends with .svg"),
        ("bars --metrics nothing {metrics} plot.svg", 2, "is no metric"),
        ("bars --metrics power {metrics} plot.svg", 1, "no value of power"),
        ("bars --font Nowhere {metrics} plot.svg", 1, "the font Nowhere isn't installed"),
        ("bars --size 9 {metrics} plot.svg", 2, "WxH in points"),
        ("bars --size 90x20 {metrics} plot.svg", 1, "too small"),
        ("bars {acks} plot.svg", 1, "isn't what `ccp metrics` writes"),
        ("bars {scenario} plot.svg", 1, "it has no column case"),
        ("bars {words} plot.svg", 1, "the column power has a value that is no number"),
        ("bars {part} plot.svg", 1, "it has no column power_sd"),
        ("bars /nowhere plot.svg", 1, "/nowhere: No such file"),
        ("flows {acks} plot.svg", 1, "no text of `timeline`"),
        ("flows --flows 7 {flows} plot.svg", 1, "no flow 7"),
        ("cdf {flows} plot.svg", 1, "primitives"),
        ("table {flows} plot.svg", 1, "no table"),
        ("shares {scenario} plot.svg", 1, "no member shared"),
        ("bars {metrics} /nowhere/plot.svg", 1, "/nowhere/plot.svg: "),
    ],
)
def test_what_plots_refuse(files, tmp_path, monkeypatch, words, status, error):
    monkeypatch.chdir(tmp_path)
    made = run_inside("plot", *(word.format(**files) for word in words.split()))
    assert made.status == status and error in made.errors and "Traceback" not in made.errors, made.errors


def test_more_senders_than_a_panel_shows_come_on_further_pages():
    rows = [{**METRICS["cases"][0], "sender": "s%d" % at, "case": "c%d" % at} for at in range(9)]
    points = plots.points_of(pd.DataFrame(rows))
    for made in (plots.bars(points, ["throughput_mbps"]), plots.scatter(points)):
        keys = [[text.get_text() for text in figure.legends[0].get_texts()] for figure in made]
        assert [name for some in keys for name in some if name != "link"] == ["s%d" % at for at in range(9)]
        assert [len([name for name in some if name != "link"]) for some in keys] == [5, 4]


def test_flows_on_one_link_are_called_by_their_sender_and_start():
    senders, starts = ["linux-reno", "linux-reno", "cubic"], [0, 20_000_000, 500_000]
    cases = [{**CASE, "name": "t-%d" % at, "agent": "reno", "sender": name} for at, name in enumerate(senders)]
    wanted = ["linux-reno (1)", "linux-reno (2)", "cubic"]
    assert plots.shared_link.flow_labels(cases) == wanted
    later = [dict(case, start_us=start) for case, start in zip(cases, starts)]
    wanted = ["linux-reno, from 0 s", "linux-reno, from 20 s", "cubic, from 0.5 s"]
    assert plots.shared_link.flow_labels(later) == wanted


def test_no_sender_hides_the_others():
    """Five senders with the same round-trip times: the image of the dots has about as much of each colour."""
    packets = pd.DataFrame({"now": range(0, 6_000_000, 1000), "packets_acked": 1, "rtt_sample_us": 30_000})
    flows = [packets_of_plots.Named(AckFrame(at, "c%d" % at, "reno", packets), "t", "s%d" % at) for at in range(5)]
    (figure,) = plots.drawn(plots.Look(), lambda: plots.delay(flows))
    dots = [line for line in figure.axes[0].lines if line.get_rasterized()]
    last = [line.get_color() for line in dots[4::5]]
    assert len(dots) == 5 * packets_of_plots.LAYERS and min(map(last.count, set(last))) >= 2 and len(set(last)) == 5
    assert sum(len(line.get_xdata()) for line in dots) == 5 * len(packets)


def test_one_trace_uses_the_width():
    """Five bars of one trace take most of the panel, and one alone a part of it."""
    rows = [{**METRICS["cases"][0], "sender": "s%d" % at, "case": "c%d" % at} for at in range(5)]
    for count, least in ((5, 0.6), (1, 0.1)):
        (figure,) = plots.bars(plots.points_of(pd.DataFrame(rows[:count])), ["throughput_mbps"])
        low, high = figure.axes[0].get_xlim()
        assert least < count / (high - low) < 0.9


def test_windows_of_a_short_run_are_no_combs(program):
    """Each value is that of a round trip or more: shorter windows would show the bursts of slow start alone."""
    made = scenario.make(["--senders", "reno,cubic", "--acks", "60", "--delay-ms", "20", "--", str(TRACES[0])])
    acks = {flow.number: flow for flow in acks_in(programs.run("acks", made, program=program).output)}
    timeline = read_timeline(programs.run("timeline", made, program=program).output)
    (figure,) = plots.flows(timeline, None, made, acks)
    throughput = figure.axes[0]
    for line in throughput.lines[::2]:
        assert np.diff(line.get_xdata()).min() > 0.0199
        values = line.get_ydata()
        # after the first round trip nothing falls to 0 and rises again
        assert (values[1:] > 0).all(), values
    assert figure.axes[-1].get_xlim()[1] < 0.2


def test_no_step_reaches_over_a_break():
    """The value before a break ends at its own time, in the line of windows and in that of round-trip times."""
    import numpy as np

    times, values = series.with_breaks(np.array([1.0, 2.0, 9.0]), np.array([5, 6, 7]), np.array([False, False, True]))
    assert list(times) == [1, 2, 2, 9] and list(values[:2]) == [5, 6] and np.isnan(values[2]) and values[3] == 7
    from ccp_tools import frames

    reports = frames.read_timeline(FLOWS).reports
    times, values = series.window_line(reports[reports["flow"] == 0], 4000, 1000, np.zeros(0))
    place = int(np.flatnonzero(np.isnan(values))[0])
    assert times[place] == times[place - 1] == 0.1 and times[place + 1] == 0.6
