"""The readers of frames and the figures: against hand-computed values, against scipy, and what they refuse."""
from __future__ import annotations

import io
import json
import math
import warnings
from pathlib import Path

import pytest
from inside import run_inside
from support import EXAMPLES, command, needs, require, table_text

pytestmark = needs("import pandas", "import scipy")
pd = require("pandas")

import ccp_tools  # noqa: E402
from ccp_tools import frames, metrics, texts  # noqa: E402
from ccp_tools.errors import BadText, CcpError  # noqa: E402
from ccp_tools.metrics import Window  # noqa: E402

CASE = {
    "name": "a",
    "agent": "reno",
    "trace": "t",
    "mss": 1000,
    "queue": 10,
    "delay_us": 20000,
    "timeout_us": 1000000,
    "acks": 7,
}
SCENARIO = {"version": 1, "traces": {"t": "10\n"}, "cases": [CASE]}
# six packets 10 ms apart, whose round-trip times rise, and a timeout half a second later with two lost packets
ACKS = (
    "flow 0 case=a agent=reno\n"
    + "".join(
        "bytes_acked=1000 packets_acked=1 now=%d rtt_sample_us=%d\n" % (30000 + 10000 * at, 30000 + 5000 * at)
        for at in range(6)
    )
    + "lost_pkts_sample=2 now=600000 rtt_sample_us=55000 was_timeout=1\n"
)
TIMELINE = """flow 0 case=a agent=reno
epoch 0 program=0 at=0 cwnd=4000
ticket 0 report program=0 epoch=0 span=0..4 taken=4 answered=4 reply=none now=60000 cwnd=5000 rate=0 rtt=30000
ticket 1 report program=0 epoch=0 span=4..6 taken=6 answered=6 reply=update:9000 now=80000 cwnd=7000 rate=0 rtt=50000
end acks=7 reports=2 held=1 faults=1 tail=6..7 stopped=no cwnd=9000 rate=0 rtt=40000
"""
ROW = {"case": "a", "agent": "reno", "acks": 7, "reports": 2, "held": 1, "faults": 1, "epochs": 1, "lost": 2}
ROW.update(timeouts=1, acked=6000, peak=9000, cwnd=9000, now=600000, tail=1)


def figures(window: Window = Window(), **more):
    return metrics.figures(SCENARIO, acks=frames.acks_in(ACKS), window=window, **more).iloc[0]


def test_columns_and_types_of_acknowledgements():
    frame = frames.read_acks(ACKS)
    assert list(frame)[:3] == ["flow", "case", "agent"] and len(frame) == 7
    assert str(frame["now"].dtype) == "uint64" and str(frame["was_timeout"].dtype) == "bool"
    assert list(frame["lost_pkts_sample"]) == [0] * 6 + [2] and list(frame["was_timeout"]) == [False] * 6 + [True]
    for source in (ACKS.encode(), io.StringIO(ACKS), io.BytesIO(ACKS.replace("\n", "\r\n").encode())):
        assert frames.read_acks(source).equals(frame)


def test_pieces_of_a_long_file(monkeypatch):
    text = "".join(ACKS.replace("flow 0 case=a", "flow %d case=a%d" % (at, at)) for at in range(9))
    wanted = frames.read_acks(text)
    for size in (7, 100, 333):
        monkeypatch.setattr(frames, "PIECE", size)
        assert frames.read_acks(io.BytesIO(text.encode())).equals(wanted)


@pytest.mark.parametrize(
    "text, error",
    [
        ("now=1\n", "line 1: a line `flow`"),
        ("\n\nnow=1\nflow 0 case=a agent=reno\n", "line 3: a line `flow`"),
        ("flow 0 case=a agent=reno\nnow=1 x=2\n", "line 2: primitives"),
        ("flow 0 case=a agent=reno\nnow=1\n\nnow=1 now=2\n", "line 4: primitives"),
        ("flow 0 case=a agent=reno\nnow=1\nnow=\n", "line 3: name=number"),
        ("flow 0 case=a agent=reno\nn5ow=3\n", "line 2: name=number"),
        ("flow 0 case=a agent=reno\n12\n", "line 2: name=number"),
        ("flow 0 case=a agent=reno\nnow=18446744073709551616\n", "line 2: name=number"),
        ("flow 0 case=a\n", "line 1: a flow has"),
    ],
)
def test_what_readers_refuse(text, error):
    with pytest.raises(BadText, match=error):
        frames.read_acks(text)


def test_greatest_number():
    frame = frames.read_acks("flow 0 case=a agent=reno\nnow=18446744073709551615")
    assert int(frame["now"].iloc[0]) == 2**64 - 1


def test_figures_by_hand():
    made = figures()
    assert (made["packets"], made["lost"], made["timeouts"]) == (6, 2, 1)
    assert made["end_s"] == made["span_s"] == 0.6
    assert made["throughput_mbps"] == pytest.approx(8 * 6000 / 600000)
    assert made["utilization"] == pytest.approx(6 / 60) and made["loss_rate"] == pytest.approx(2 / 8)
    # round-trip times of 30, 35 .. 55 ms less a delay of 20 ms
    assert made["queueing_mean_ms"] == pytest.approx(22.5) and made["rtt_mean_ms"] == pytest.approx(42.5)
    assert (made["queueing_p50_ms"], made["queueing_p95_ms"], made["queueing_p99_ms"]) == (20, 35, 35)
    assert made["first_loss_s"] == 0.6 and made["power"] == pytest.approx(0.08 / 42.5)


def test_a_window_of_time():
    """After 40 ms up to 60 ms: the acknowledgements at 50 and 60 ms."""
    made = figures(Window(40000, 60000))
    assert (made["packets"], made["lost"], made["timeouts"], made["span_s"]) == (2, 0, 0, 0.02)
    assert made["throughput_mbps"] == pytest.approx(8 * 2000 / 20000) and made["utilization"] == 1
    assert (made["queueing_p50_ms"], made["queueing_mean_ms"]) == (20, 22.5) and math.isnan(made["first_loss_s"])
    # a case that ends before the window has its own span
    assert figures(Window(0, 10**6))["span_s"] == 0.6
    assert math.isnan(figures(Window(700000, 10**6))["throughput_mbps"])


def test_mean_window_and_counts():
    timeline = frames.read_timeline(TIMELINE)
    made = figures(timeline=timeline, table=texts.read_table(table_text([ROW])))
    assert made["window_mean_bytes"] == pytest.approx((5000 * 60 + 7000 * 20) / 80)
    assert (made["reports"], made["held"], made["faults"], made["epochs"]) == (2, 1, 1, 1)
    cut = metrics.figures(SCENARIO, acks=frames.acks_in(ACKS), timeline=timeline, window=Window(50000, 70000)).iloc[0]
    assert cut["window_mean_bytes"] == pytest.approx((5000 * 10 + 7000 * 10) / 20)


def test_doubts():
    made = figures(timeline=frames.read_timeline(TIMELINE))
    assert made["doubts"] == "1 fault of its program; 1 report held back"
    row = {**ROW, "reports": 0, "held": 0, "faults": 0, "peak": 4000, "cwnd": 4000}
    doubts = metrics.figures(SCENARIO, table=texts.read_table(table_text([row])))["doubts"].iloc[0]
    assert doubts == "no report; its window never moved from 4000 bytes"
    own = {**SCENARIO, "programs": {"p": ""}, "cases": [{**CASE, "ss": "p", "ca": "p"}]}
    table = texts.read_table(table_text([{**ROW, "epochs": 3, "faults": 0, "held": 0}]))
    assert metrics.figures(own, table=table)["doubts"].iloc[0] == "its agent changed the program 2 times"
    assert metrics.figures(own, table=table, answered=["reno.p"])["doubts"].iloc[0] == ""


def test_texts_of_other_runs_are_refused():
    with pytest.raises(CcpError, match="different runs.*lost=3"):
        figures(table=texts.read_table(table_text([{**ROW, "lost": 3}])))
    with pytest.raises(CcpError, match="case 0 is b"):
        metrics.figures(SCENARIO, acks=frames.acks_in(ACKS.replace("case=a", "case=b")))
    with pytest.raises(CcpError, match="there are 2 cases, and 1"):
        metrics.figures(SCENARIO, acks=frames.acks_in(ACKS + ACKS.replace("flow 0", "flow 1")))


def test_groups_against_scipy():
    """Mean, standard deviation and interval of groups of 1 to 30 cases."""
    from scipy import stats

    rows = [{"trace": "t%d" % size, "power": math.sin(7 * at) + at} for size in (1, 2, 3, 10, 30) for at in range(size)]
    frame = pd.DataFrame([*rows, {"trace": "none", "power": None}])
    made = metrics.groups(frame, ["trace"], ["power"]).set_index("trace")
    for trace, group in frame.dropna().groupby("trace"):
        values, row = list(group["power"]), made.loc[trace]
        assert row["n"] == row["power_n"] == len(values) and row["power_mean"] == pytest.approx(
            sum(values) / len(values)
        )
        if len(values) == 1:
            assert math.isnan(row["power_sd"]) and math.isnan(row["power_ci95"])
        else:
            low, high = stats.t.interval(0.95, len(values) - 1, row["power_mean"], stats.sem(values))
            assert row["power_sd"] == pytest.approx(stats.tstd(values))
            assert row["power_ci95"] == pytest.approx((high - low) / 2)
    assert (made.loc["none", "n"], made.loc["none", "power_n"]) == (1, 0)


def test_percentiles_are_nearest_rank():
    """The smallest value such that at least that share of all values is at most it, for 1 to 400 values."""
    import numpy as np

    for count in range(1, 401):
        values = np.arange(count) * 10
        found = np.percentile(values, metrics.PERCENTILES, method="inverted_cdf")
        assert list(found) == [values[max(0, -(-count * percent // 100) - 1)] for percent in metrics.PERCENTILES]


@pytest.fixture
def files(tmp_path: Path):
    made = {"scenario": json.dumps(SCENARIO), "acks": ACKS, "timeline": TIMELINE, "table": table_text([ROW])}
    for name, text in made.items():
        (tmp_path / name).write_text(text)
    return {name: str(tmp_path / name) for name in made}


def test_the_command(files):
    texts_in_any_order = [files[name] for name in ("timeline", "acks", "table")]
    made = command("metrics", files["scenario"], *texts_in_any_order, "--columns", "case,lost,power,doubts")
    assert made.status == 0 and made.errors.startswith("ccp: warning: case a: 1 fault")
    assert made.output == "case,lost,power,doubts\na,2,0.00188235294,1 fault of its program; 1 report held back\n"
    old = command("metrics", files["scenario"], "--acks", files["acks"], "--columns", "case,lost", "--json", "--quiet")
    assert json.loads(old.output) == {"cases": [{"case": "a", "lost": 2}]}
    late = command("metrics", files["scenario"], files["acks"], "--until", "3", "--columns", "span_s")
    assert late.output == "span_s\n0.6\n" and "it ends at 0.6 s, before --until 3" in late.errors
    by = command(
        "metrics", files["scenario"], "-", "--by", "trace", "--columns", "lost", "--format", "json", given=ACKS
    )
    assert json.loads(by.output)["groups"][0]["metrics"]["lost"] == {"n": 1, "mean": 2.0, "sd": None, "ci95": None}


@pytest.mark.parametrize(
    "words, status, error",
    [
        ([], 2, "a text of campaign"),
        (["{acks}", "{acks}"], 2, "two texts of this kind"),
        (["{scenario}"], 1, "a text of campaign, shared, timeline or acks is expected"),
        (["{acks}", "--until", "0"], 2, "seconds above 0"),
        (["{acks}", "--until", "1", "--from", "2"], 2, "after that of --from"),
        (["{table}", "--until", "1"], 1, "needs the acknowledgements"),
        (["{acks}", "--by", "nothing"], 2, "no such column"),
        (["{acks}", "--format", "parquet"], 2, "needs --out"),
        (["/nowhere"], 1, "/nowhere: No such file"),
        (["/"], 1, "/: "),
    ],
)
def test_what_the_command_refuses(files, words, status, error):
    made = run_inside("metrics", files["scenario"], *(word.format(**files) for word in words))
    assert (made.status, made.output) == (status, "") and error in made.errors and "Traceback" not in made.errors


def test_groups_of_all_figures_warn_of_nothing():
    """Every figure that there is, over two columns of which one has no value; pandas' warnings would reach the user."""
    rows = [{"trace": "t", "seed": seed, **{name: float(seed) for name in metrics.METRICS}} for seed in (1, 2, 3)]
    with warnings.catch_warnings():
        warnings.simplefilter("error")
        made = metrics.groups(pd.DataFrame(rows).assign(mark=None), ["trace", "mark"])
    assert len(made) == 1 and made["n"][0] == 3 and list(made)[:3] == ["trace", "mark", "n"]
    for name in metrics.METRICS:
        assert [made[name + kind][0] for kind in ("_n", "_mean", "_sd")] == [3, 2, 1], name


def test_forms_of_a_scenario(program: Path, tmp_path: Path) -> None:
    """The members, the text and the path of a file are one scenario for each function of the package."""
    path = EXAMPLES / "live.json"
    text = path.read_text(encoding="utf-8")
    frames = [ccp_tools.figures(given) for given in (json.loads(text), text, text.encode(), path, str(path))]
    assert all(frame.equals(frames[0]) for frame in frames) and len(frames[0]) == len(json.loads(text)["cases"])
    assert ccp_tools.run_campaign(path).equals(ccp_tools.run_campaign(text))
    with pytest.raises(CcpError, match="a scenario is a dict, a text or the path of a file, not int"):
        ccp_tools.timeline(7)  # type: ignore[arg-type]
