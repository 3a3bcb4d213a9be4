"""Flows that share a link in several orders, and the warnings about long gaps and about losses of slow start."""
from __future__ import annotations

import itertools

import pytest
from inside import run_inside
from support import needs, require

pytestmark = needs("import pandas", "import scipy")
pd = require("pandas")

from ccp_tools import metrics, orders, scenario, slow_start, traces  # noqa: E402
from ccp_tools.errors import CcpError, UsageError  # noqa: E402

WORDS = ["--for", "shared", "--shared", "t:20:5", "--seconds", "2", "--senders", "reno,cubic", "--delay-ms", "10,20"]


@pytest.fixture(name="shared")
def shared_fixture(tmp_path):
    """A scenario of four flows on a link of a packet a millisecond."""
    path = tmp_path / "t.trace"
    path.write_text("1\n")
    return scenario.make([*WORDS, "t=%s" % path])


# ---- orders and changes


def test_all_orders_and_some():
    assert orders.orders_of(3) == list(itertools.permutations(range(3)))
    assert orders.orders_of(4, 4) == [(0, 1, 2, 3), (1, 0, 2, 3), (2, 0, 1, 3), (3, 0, 1, 2)]
    assert orders.orders_of(2, 9) == [(0, 1), (1, 0)]
    assert len(set(orders.orders_of(8, 500))) == 500
    with pytest.raises(UsageError, match="5040 orders"):
        orders.orders_of(7)


def test_changes_are_small_and_repeat(shared):
    assert orders.changed(shared, 0) is shared
    queues = set()
    for change in range(1, 40):
        one = orders.changed(shared, change)
        assert one == orders.changed(shared, change)
        assert abs(one["shared"]["queue"] - 20) <= orders.QUEUE_PACKETS
        for case, before in zip(one["cases"], shared["cases"]):
            assert 0 <= case["delay_us"] - before["delay_us"] <= orders.DELAY_US
        queues.add(one["shared"]["queue"])
    assert len(queues) == 2 * orders.QUEUE_PACKETS + 1


def test_runs_hold_each_order_with_each_change(shared):
    runs = orders.runs_of(shared, 6, 2)
    assert [run.number for run in runs] == list(range(1, 13)) and {run.change for run in runs} == {1, 2}
    for run in runs:
        assert [case["name"] for case in run.scenario["cases"]] == [shared["cases"][at]["name"] for at in run.order]
        assert [run.order[run.place(flow) - 1] for flow in range(4)] == [0, 1, 2, 3]
    with pytest.raises(CcpError, match="flows that share a link"):
        orders.runs_of({"version": 1, "traces": {}, "cases": []})
    with pytest.raises(UsageError, match="2400 runs"):
        orders.runs_of(shared, 0, 100)


def test_figures_of_orders(shared, program):
    frame = metrics.figures_of_orders(shared, 0, 1, program)
    assert len(frame) == 24 * 4 and list(frame["case"][:4]) == [case["name"] for case in shared["cases"]]
    assert frame.groupby("run")["share"].sum().to_numpy() == pytest.approx(1)
    assert sorted(frame[frame["run"] == 24]["place"]) == [1, 2, 3, 4]
    # each flow has each place equally often
    assert (frame.groupby(["case", "place"]).size() == 6).all()


def test_metrics_of_orders(shared, program, tmp_path):
    path = tmp_path / "shared.json"
    scenario.write_scenario(shared, path)
    words = ["--orders", "4", "--changes", "2", "--by", "sender", "--columns", "share", "--ccp", str(program)]
    made = run_inside("metrics", str(path), *words)
    head, *lines = made.output.strip().split("\n")
    assert head == "sender,n,share_n,share_mean,share_sd,share_ci95"
    assert [line.split(",")[:3] for line in lines] == [["reno", "16", "16"], ["cubic", "16", "16"]]
    # two flows of each sender, so the mean shares are those of one flow
    assert sum(float(line.split(",")[3]) for line in lines) == pytest.approx(0.5)


@pytest.mark.parametrize(
    "words, error",
    [
        (["--changes", "2"], "--changes needs --orders"),
        (["--orders", "none"], "all, or a number from 1 to 2000"),
        (["--orders", "all", "--until", "3"], "--orders runs the scenario itself"),
    ],
)
def test_what_orders_refuse(shared, tmp_path, words, error):
    path = tmp_path / "shared.json"
    scenario.write_scenario(shared, path)
    made = run_inside("metrics", str(path), *words)
    assert made.status == 2 and error in made.errors


# ---- gaps


def test_gaps_begin_anew():
    assert traces.gaps_of([0, 3, 3, 10]) == [0, 3, 0, 7]
    assert traces.gaps_of([5, 10]) == [5, 5]


def test_gap_warning():
    assert traces.gap_warning("x", [100, 300]) is None
    text = traces.gap_warning("x", [201, 300, 700])
    assert text is not None and text.startswith("the trace x has 2 gaps longer than 200 ms, up to 400 ms: ")


def test_info_and_compare_warn_of_gaps(tmp_path, program):
    path = tmp_path / "gap.trace"
    path.write_text("".join("%d\n" % at for at in [*range(1, 500), *range(900, 1000)]))
    made = run_inside("trace", "info", str(path))
    assert "1 gap longer than 200 ms, up to 401 ms" in made.errors and "gaps_over_200_ms      1" in made.output
    assert run_inside("trace", "info", "--quiet", str(path)).errors == ""
    words = ["--senders", "reno", "--seconds", "1", "--out", str(tmp_path / "out"), "--ccp", str(program)]
    made = run_inside("compare", str(path), *words)
    assert "the trace gap has 1 gap longer than 200 ms" in made.errors
    assert "the trace gap has 1 gap longer than 200 ms" in (tmp_path / "out" / "report.html").read_text()
    # a run of a second is that of slow start
    assert "lost%: most losses are slow start's, in the first 5 s" in made.output


# ---- losses of slow start


def test_share_of_slow_start():
    frame = pd.DataFrame({"now": [10**6, 5 * 10**6, 6 * 10**6], "lost_pkts_sample": [3, 0, 1]})
    assert slow_start.of_acks({}, frame) == 0.75
    assert slow_start.of_acks({"losses": [3]}, frame) is None
    assert slow_start.of_acks({}, frame.assign(lost_pkts_sample=0)) is None
    assert slow_start.of_table({}, 5_000_000, 2) == 1
    assert slow_start.of_table({}, 5_000_001, 2) is None and slow_start.of_table({}, 1000, 0) is None


def test_marks_of_slow_start():
    assert slow_start.is_marked(0.6) and not slow_start.is_marked(0.5)
    assert not slow_start.is_marked(None) and not slow_start.is_marked(float("nan"))
    assert slow_start.note_of(["a", "b"], [0.2, None]) == []
    (text,) = slow_start.note_of(["a", "b"], [0.2, 1.0])
    assert text.endswith("with --from 5 leaves them out: b")
