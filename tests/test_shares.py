"""What flows get of one link over time, against values worked out by hand from the texts of a run of two flows.

The link has a chance each millisecond, from 1 ms on, and the run ends at 55 ms. Flow a has 3 acknowledgements from 10
to 20 ms, 5 to 30 ms, 1 to 40 ms and 5 to 50 ms, the last at 47 ms. Flow b starts at 20 ms and has 3 to 30 ms, 2 to
40 ms, 3 to 50 ms, and the last at 51 ms."""
from __future__ import annotations

import json
import math
import re
from pathlib import Path

import pytest
from inside import run_inside
from support import REPOSITORY, needs, require

pytestmark = needs("import pandas", "import matplotlib")
pd = require("pandas")
require("matplotlib")

import numpy as np  # noqa: E402

from ccp_tools import frames, plots, program, reference, shares, texts  # noqa: E402
from ccp_tools.compare import shared  # noqa: E402
from ccp_tools.errors import CcpError  # noqa: E402
from ccp_tools.traces import Trace  # noqa: E402

DATA = REPOSITORY / "tests" / "data"
SCENARIO = json.loads((DATA / "two-flows.json").read_text())
ACKS, TIMELINE = ((DATA / ("two-flows." + kind)).read_text() for kind in ("acks", "timeline"))
TABLE = reference.shared(SCENARIO)
RUN_US = 55_000
LINK = {"rounds": 11, "sent": 41, "acked": 23, "lost": 2, "inflight": 16}
WINDOW = ("--window-ms", "10")


@pytest.fixture
def run():
    """The acknowledgements, the flows, and the edges of windows of 10 ms."""
    acks = frames.read_acks(ACKS)
    return acks, shares.flows_of(acks, SCENARIO, RUN_US), shares.edges_us(RUN_US, 10_000)


def test_the_texts_are_those_of_the_reference_model():
    assert reference.shared_acks(SCENARIO) == ACKS
    assert reference.shared_timeline(SCENARIO) == TIMELINE


def test_readers():
    for text in (ACKS, TIMELINE, TABLE):
        assert texts.read_link(text) == LINK
    assert [(flow.case, len(flow.acks)) for flow in texts.read_acks(ACKS)] == [("a", 14), ("b", 9)]
    assert [len(flow.reports) for flow in texts.read_flows(TIMELINE)] == [2, 4]
    assert list(frames.read_acks(ACKS)["flow"].value_counts()) == [14, 9]


def test_flows(run):
    acks, flows, _ = run
    assert list(flows["case"]) == ["a", "b"] and list(flows["delay_us"]) == [10_000, 5_000]
    assert list(flows["start_us"]) == [0, 20_000] and list(flows["end_us"]) == [47_000, 51_000]
    # a flow without all its acknowledgements ends with the run
    more = {**SCENARIO, "cases": [{**case, "acks": 20} for case in SCENARIO["cases"]]}
    assert list(shares.flows_of(acks, more, RUN_US)["end_us"]) == [RUN_US, RUN_US]
    seen = shares.flows_seen(acks)
    assert list(seen["start_us"]) == [0, 20_000] and list(seen["end_us"]) == [47_000, 51_000]


def test_a_flow_without_acknowledgements():
    end = "flow 1 case=b agent=cubic\nlink rounds=20 sent=21 acked=14 lost=0 inflight=7\n"
    text = ACKS[: ACKS.index("flow 1")] + end
    acks = frames.read_acks(text)
    flows = shares.flows_of(acks, SCENARIO, 100_000)
    assert list(flows["end_us"]) == [47_000, 100_000] and len(shares.flows_seen(acks)) == 2
    edges = shares.edges_us(100_000, 50_000)
    assert shares.counted_in(acks, flows, edges, "packets_acked").values.tolist() == [[14, 0], [0, 0]]
    assert shares.shares_of(shares.counted_in(acks, flows, edges, "bytes_acked")).isna().values.tolist() == [
        [False, False],
        [True, True],
    ]


def test_windows(run):
    acks, flows, edges = run
    assert list(edges) == [0, 10_000, 20_000, 30_000, 40_000, 50_000]
    packets = shares.counted_in(acks, flows, edges, "packets_acked")
    assert packets.values.tolist() == [[0, 0], [3, 0], [5, 3], [1, 2], [5, 3]]
    got = shares.counted_in(acks, flows, edges, "bytes_acked")
    assert (got == 1448 * packets).all(axis=None)
    assert shares.throughput_mbps(got, edges)[0].iloc[2] == pytest.approx(5 * 1448 * 8 / 10_000)
    assert shares.shares_of(got)[1].iloc[1:].tolist() == pytest.approx([0, 3 / 8, 2 / 3, 3 / 8])
    assert shares.active_in(flows, edges).values.T.tolist() == [
        [True, True, True, True, False],
        [False, False, True, True, True],
    ]
    assert list(shares.chances_in(Trace([1]), edges)) == [9, 10, 10, 10, 10]


def test_jain(run):
    acks, flows, edges = run
    assert shares.jain([5, 5, 5]) == 1 and shares.jain([7, 0, 0, 0]) == 0.25 and shares.jain([0, 0]) is None
    got, active = shares.counted_in(acks, flows, edges, "bytes_acked"), shares.active_in(flows, edges)
    index = shares.jain_in(got, active)
    assert math.isnan(index.iloc[0]) and list(index.iloc[1:]) == pytest.approx([1, 64 / 68, 0.9, 1])
    assert list(shares.jain_in(got, active, 2).dropna()) == pytest.approx([64 / 68, 0.9])


@pytest.mark.parametrize(
    "part, in_a_row, after",
    [(0.9, 3, [None, None]), (0.9, 1, [0.02, None]), (0.6, 1, [0.02, 0]), (0.3, 2, [0.01, 0]), (0.3, 3, [None, 0])],
)
def test_the_time_to_the_fair_share(run, part, in_a_row, after):
    """The fair shares are 9, 10, 5, 5 and 10 packets: a is alone before 20 ms, and b after 47 ms."""
    acks, flows, edges = run
    packets, active = shares.counted_in(acks, flows, edges, "packets_acked"), shares.active_in(flows, edges)
    found = shares.fair_after_s(packets, active, shares.chances_in(Trace([1]), edges), flows, part, in_a_row)
    assert [None if math.isnan(value) else value for value in found] == after


def test_the_queue(run):
    acks, flows, edges = run
    waits = shares.waits_of(acks, flows)
    assert list(waits["wait_ms"]) == [1, 2, 3, 0, 1, 2, 3, 4, 5, 0, 1, 3, 5, 7, 1, 2, 3, 2, 4, 6, 8, 1, 1]
    assert list(waits["sent_us"][:4]) == [0, 0, 0, 15_000] and waits["sent_us"].iloc[-1] == 45_000
    found = shares.waits_in(waits, edges)
    assert list(found["mean_ms"]) == [2, 2.5, 2, 4, 1]
    assert list(found["least_ms"]) == [1, 0, 1, 0, 1] and list(found["most_ms"]) == [3, 5, 3, 8, 1]
    flows["delay_us"] = 12_000
    with pytest.raises(CcpError, match="case a: a round-trip time is below its delay_us"):
        shares.waits_of(acks, flows)


def test_the_length_of_windows():
    assert [shares.window_us(end, 50) for end in (1, 50_000, 50_001, 10_000_000, 40_000_000)] == [
        1000,
        1000,
        2000,
        200_000,
        1_000_000,
    ]


# ---- ccp metrics


@pytest.fixture
def files(tmp_path: Path):
    made = {"scenario": json.dumps(SCENARIO), "acks": ACKS, "timeline": TIMELINE, "table": TABLE}
    for name, text in made.items():
        (tmp_path / name).write_text(text)
    return {name: str(tmp_path / name) for name in made}


def figures_of(files, *words):
    made = run_inside("metrics", files["scenario"], *words, "--json", "--quiet")
    assert made.status == 0, made.errors
    return json.loads(made.output)["cases"]


def test_figures(files):
    first, second = figures_of(files, files["acks"], files["timeline"], *WINDOW)
    assert (first["span_s"], second["span_s"]) == (0.055, 0.035)
    assert first["throughput_mbps"] == pytest.approx(8 * 20272 / 55_000)
    assert second["throughput_mbps"] == pytest.approx(8 * 13032 / 35_000)
    # chances at 1 to 54 ms, and at 20 to 54 ms
    assert (first["utilization"], second["utilization"]) == (pytest.approx(14 / 54), pytest.approx(9 / 35))
    assert (first["share"], second["share"]) == (pytest.approx(14 / 23), pytest.approx(9 / 23))
    assert first["jain"] == second["jain"] == pytest.approx(529 / 554)
    assert first["jain_windows"] == pytest.approx((64 / 68 + 0.9) / 2) and first["fair_after_s"] is None
    assert first["link_utilization"] == pytest.approx(23 / 54) and first["link_loss_rate"] == pytest.approx(2 / 25)
    assert second["queueing_mean_ms"] == pytest.approx(28 / 9) and second["first_loss_s"] == 0.037
    assert (second["reports"], second["epochs"]) == (4, 3)
    assert first["window_mean_bytes"] == pytest.approx((10136 * 25 + 18824 * 15) / 40)
    assert second["window_mean_bytes"] == pytest.approx((5792 * 6 + 8688 * 11 + 6081 * 14) / 31)


def test_the_table_agrees_with_the_acknowledgements(files):
    of_table, of_acks = figures_of(files, files["table"]), figures_of(files, files["acks"])
    same = "packets lost timeouts span_s throughput_mbps utilization loss_rate share jain link_utilization".split()
    for one, other in zip(of_table, of_acks):
        assert [one[name] for name in same] == [other[name] for name in same]
    every = figures_of(files, files["table"], files["acks"], files["timeline"])
    assert [row["share"] for row in every] == [row["share"] for row in of_acks]


def test_a_window_of_time(files):
    """After 20 ms up to 40 ms, 7 packets of a and 5 of b."""
    first, second = figures_of(files, files["acks"], "--from", "0.02", "--until", "0.04", *WINDOW)
    assert (first["packets"], second["packets"], first["span_s"], second["span_s"]) == (7, 5, 0.02, 0.02)
    assert second["share"] == pytest.approx(5 / 12) and first["jain_windows"] == pytest.approx((64 / 68 + 0.9) / 2)


def test_the_fair_share_of_a_flow(files):
    """It takes three windows one after another, and the run has two of 20 ms."""
    first, second = figures_of(files, files["acks"], "--window-ms", "20")
    assert first["fair_after_s"] is None and second["fair_after_s"] is None


@pytest.mark.parametrize(
    "change, error",
    [
        (lambda files: edit(files["acks"], "rounds=11", "rounds=12"), "different runs"),
        (lambda files: edit(files["acks"], "packets_acked=1 now=47000", "now=47000 was_timeout=1"), "different runs"),
        (lambda files: edit(files["scenario"], '"shared": {', '"other": {'), "no member shared"),
        (lambda files: edit(files["acks"], "link rounds=11", "link rounds=x"), "link"),
    ],
)
def test_what_metrics_refuses(files, change, error):
    change(files)
    made = run_inside("metrics", files["scenario"], files["table"], files["acks"])
    assert made.status == 1 and error in made.errors and "Traceback" not in made.errors, made.errors


def edit(path, old, new):
    text = Path(path).read_text()
    assert old in text
    Path(path).write_text(text.replace(old, new))


# ---- ccp plot shares


def plotted(files, tmp_path, *words):
    made = run_inside("plot", "shares", *words, files["acks"], tmp_path / "plot.svg")
    assert made.status == 0, made.errors
    shown = re.findall(r"<text[^>]*>([^<]*)</text>", (tmp_path / "plot.svg").read_text())
    return {text.strip() for text in shown}, made.errors


def test_a_plot_of_shares(files, tmp_path):
    shown, errors = plotted(files, tmp_path, "--scenario", files["scenario"], *WINDOW)
    assert {
        "reno, from 0 s",
        "cubic, from 0.02 s",
        "link",
        "share [%]",
        "Jain's index",
        "queue [ms]",
        "virtual time [s]",
    } <= shown and not errors
    shown, errors = plotted(files, tmp_path)
    assert {"a", "b", "share [%]"} <= shown and not {"link", "queue [ms]"} & shown and "--scenario" in errors


def test_what_a_plot_of_shares_shows(files):
    figure = plots.shares_of_acks(ACKS, SCENARIO, 10_000)
    capacity = figure.axes[0].patches[0].get_data().values.tolist()
    assert capacity == pytest.approx([8 * 1448 * chances / 10_000 for chances in (9, 10, 10, 10, 10)])
    first, second = (values_of(line) for line in figure.axes[0].lines[::2])
    assert first == pytest.approx([8 * 1448 * packets / 10_000 for packets in (0, 3, 5, 1, 5)])
    assert np.isnan(second[:2]).all() and second[2:] == pytest.approx([3.4752, 2.3168, 3.4752])
    assert values_of(figure.axes[3].lines[0]) == [2, 2.5, 2, 4, 1]
    assert figure.axes[3].patches[0].get_data().baseline.tolist() == [1, 0, 1, 0, 1]


def values_of(line):
    """The values of a line of steps, whose last one is there twice."""
    return list(line.get_ydata()[:-1])


@pytest.mark.parametrize(
    "words, error",
    [
        (("--window-ms", "100"), "shorter than a window"),
        (("--scenario", "{other}"), "case 1 is b, and in the scenario c"),
        (("--scenario", "{far}"), "below its delay_us"),
        (("--scenario", "/nowhere"), "/nowhere: No such file"),
    ],
)
def test_what_a_plot_of_shares_refuses(files, tmp_path, words, error):
    text = json.dumps(SCENARIO)
    (tmp_path / "other").write_text(text.replace('"name": "b"', '"name": "c"'))
    (tmp_path / "far").write_text(text.replace('"delay_us": 10000', '"delay_us": 20000'))
    words = [word.format(other=tmp_path / "other", far=tmp_path / "far") for word in words]
    made = run_inside("plot", "shares", *words, files["acks"], tmp_path / "plot.svg")
    assert made.status == 1 and error in made.errors and "Traceback" not in made.errors, made.errors


def test_a_plot_of_a_scenario_runs_the_program(files, tmp_path, program_path):
    made = run_inside("plot", "shares", "--steps", "2", files["scenario"], tmp_path / "plot.svg")
    assert made.status == 0 and (tmp_path / "plot.svg").exists(), made.errors


# ---- compare --shared


def test_both_ways_of_a_comparison_agree(monkeypatch):
    """A program with `shared-acks` and one without it give the same bytes at the same times."""
    modes = {"shared": reference.shared, "shared-acks": reference.shared_acks}

    def run(mode, given, **_):
        return program.Run(modes[mode](given), "", 0)

    monkeypatch.setattr(program, "run", run)
    found = []
    for is_known in (False, True):
        monkeypatch.setattr(program, "knows_mode", lambda *_, known=is_known: known)
        found.append(shared.series_of(SCENARIO, Path("ccp")))
    tables, acks = found
    assert tables.times == acks.times and np.array_equal(tables.acked, acks.acked)
    assert tables.queue is None and len(acks.queue) == len(acks.lost) - 1 == len(acks.times) - 1
    assert tables.lost[-1] == acks.lost[-1] == LINK["lost"]
