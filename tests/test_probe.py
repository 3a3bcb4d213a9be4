"""Programs that measure themselves: their figures are those of the acknowledgements, and where they can't measure
themselves the acknowledgements are read."""
from __future__ import annotations

import re
import sys

import pytest
from inside import run_inside
from support import EXAMPLES, needs, ran, require

pytestmark = needs("import pandas", "import scipy")
pd = require("pandas")

from ccp_tools import frames, metrics, probe, program, scenario, scenario_files, texts  # noqa: E402
from ccp_tools.errors import CcpError  # noqa: E402
from ccp_tools.spans import Window  # noqa: E402

OWN = [EXAMPLES / "delay.portus", *sorted((EXAMPLES / "senders").glob("*.portus"))]
SENDERS = ",".join(["reno,cubic,linux-reno,linux-cubic", *("%s=%s" % (path.stem, path) for path in OWN)])
WAVE = str(EXAMPLES / "traces" / "wave.trace")
# a window that a lost packet halves, and no field that an agent answers
TEXT = "(def (Report (lost 0)) (mss 1)) (when true (:= Cwnd (* 20 mss)) (report))"


def made_of(*words: str) -> dict:
    return scenario.make(["--for", "acks", "--acks", "900", *words, WAVE])


def with_program(text: str, **members: object) -> dict:
    """A scenario of one case with a program of its own."""
    case = {"name": "own", "agent": "reno", "ss": "own", "ca": "own", "trace": "t", "mss": 1448, "queue": 20}
    case.update(delay_us=20000, timeout_us=1000000, acks=300, **members)
    return {"version": 1, "programs": {"own": text}, "traces": {"t": "1\n"}, "cases": [case]}


def check_equal(given: dict, begin_s: float = 0, until_s: float | None = None) -> None:
    """The figures of programs that measure themselves are those of ccp_tools.figures, exactly."""
    window = Window(round(begin_s * 1e6), None if until_s is None else round(until_s * 1e6))
    frame = frames.figures(given, until_s=until_s, begin_s=begin_s)
    found = probe.mean_figures(given, window)
    assert [one.case for one in found] == list(frame["case"])
    for one, (_, row) in zip(found, frame.iterrows()):
        for name in set(probe.MeanFigures.__dataclass_fields__) - {"case", "rtt_max_ms"}:
            value = getattr(one, name)
            if pd.isna(row[name]):
                assert value is None, (one.case, name, value)
            else:
                assert value == pytest.approx(row[name], rel=1e-9, abs=1e-9), (one.case, name)


def no_acks(monkeypatch) -> None:
    """Refuses the acknowledgements as a way to the figures."""
    monkeypatch.setattr(probe, "figures_by_acks", lambda given, numbers, *more: [None] * len(numbers))


@pytest.mark.parametrize("span", [(0, None), (0.3, None), (0, 0.7), (0.2, 0.7)])
def test_figures_equal_those_of_the_acknowledgements(program, span):
    check_equal(made_of("--senders", SENDERS, "--losses", "rate:0.01"), *span)


def test_all_shipped_senders_but_one_measure_themselves(program, monkeypatch):
    """linux-cubic takes nearly all instructions that a program may have, so its acknowledgements are read."""
    given = made_of("--senders", SENDERS, "--losses", "none,rate:0.01", "--queue", "20")
    no_acks(monkeypatch)
    found = probe.mean_figures(given, Window(200_000, 700_000))
    measured = [case["sender"] for case, one in zip(given["cases"], found) if one and one.packets]
    assert len(found) == 22 and len(measured) == 20 and "linux-cubic" not in measured


def test_the_greatest_round_trip(program):
    given = made_of("--senders", "reno")
    rows = frames.acks(given)
    inside = rows[(rows.now > 200_000) & (rows.now <= 700_000) & (rows.packets_acked > 0)]
    found = probe.mean_figures(given, Window(200_000, 700_000))[0]
    assert found.rtt_max_ms == inside.rtt_sample_us.max() / 1000


def test_a_window_for_each_trace(program):
    given = made_of("--senders", "delay=%s" % OWN[0])
    given["traces"]["t"], given["cases"] = "2\n", [*given["cases"], {**given["cases"][0], "trace": "t"}]
    windows = {"wave": Window(100_000, 300_000), "t": Window(500_000)}
    both = probe.mean_figures(given, windows)
    assert both[0] == probe.mean_figures(given, windows["wave"])[0]
    assert both[1] == probe.mean_figures(given, windows["t"])[1]


@pytest.mark.parametrize("words", [["--lag", "3", "--losses", "rate:0.02"], ["--mark", "5"], ["--slots", "1"]])
def test_figures_with_answers_that_come_late(program, words):
    check_equal(made_of("--senders", "reno,linux-cubic", *words))


def test_what_a_lag_leaves_uncounted_is_noticed(program):
    given = made_of("--senders", "reno", "--lag", "3", "--losses", "rate:0.02")
    text = probe.measuring(probe.built_in("reno_ss")), probe.measuring(probe.built_in("reno_ca"))
    given["programs"] = {"a": text[0], "b": text[1]}
    given["cases"][0].update(ss="a", ca="b")
    assert probe.counts_of(programs_output(given)) == [None]


def programs_output(given: dict) -> str:
    return program.run("timeline", given).output


def test_a_fault_is_noticed(program):
    faulty = TEXT.replace("(report)", "(:= Report.lost (/ 1 (- 50 (min 50 Ack.now)))) (report)").replace("50", "90000")
    given = with_program(faulty)
    found = probe.mean_figures(given)[0]
    assert found.faults > 0 and found.packets == 300
    check_equal(given)


@pytest.mark.parametrize(
    "text",
    [
        # 64 fields, and 243 instructions: there is no room for more
        TEXT.replace("(lost 0)", " ".join("(f%d 0)" % at for at in range(64))),
        TEXT.replace("(report)", "(:= Report.lost (+ Report.lost 1)) " * 120 + "(report)"),
    ],
    ids=["fields", "instructions"],
)
def test_without_room_the_acknowledgements_are_read(program, program_path, text):
    assert probe.is_accepted(text, program_path) and not probe.is_accepted(probe.measuring(text), program_path)
    check_equal(with_program(text))


@pytest.mark.parametrize(
    "text",
    [
        TEXT.replace("(lost 0)", "(m0_acks 7) (m1_end 3)"),
        TEXT.replace("(Report (lost 0))", ""),
        "# (def (Report (x 0))) no\n(def # (when true\n (Report)\n (mss 1))\n(when true (:= Cwnd (* 9 mss)))",
        "( def (mss 1) ) ( when (> mss 2) (:= Cwnd (* mss 9)) )",
        "(def (mss 1))",
    ],
    ids=["names", "no-fields", "comments", "blanks", "no-blocks"],
)
def test_any_text_gets_the_fields(program, program_path, monkeypatch, text):
    assert probe.is_accepted(probe.measuring(text, 5, 9), program_path)
    given = with_program(text)
    check_equal(given)
    no_acks(monkeypatch)
    assert probe.mean_figures(given)[0] is not None


def test_a_program_behaves_as_before(program):
    """The same blocks, and what the flow does is the same: its reports, its windows and its end."""
    text = OWN[0].read_text()
    plain, own = with_program(text, losses=[40, 90]), with_program(probe.measuring(text), losses=[40, 90])
    assert probe.measuring(text).count("(when") == text.count("(when") + 2
    for one, other in zip(*(texts.read_flows(programs_output(given))[0].reports for given in (plain, own))):
        assert one.fields == {name: other.fields[name] for name in one.fields}
        assert (one.first, one.end, one.now, one.cwnd) == (other.first, other.end, other.now, other.cwnd)


def test_more_programs_and_cases_than_a_run_takes(program):
    """20 programs, 100 cases: they are split, and come back in their order."""
    given = with_program(TEXT)
    given["programs"] = {"p%d" % at: TEXT.replace("20", str(at + 1)) for at in range(20)}
    case = given["cases"][0]
    given["cases"] = [
        {**case, "name": "c%d" % at, "ss": "p%d" % (at % 20), "ca": "p%d" % (at % 20)} for at in range(100)
    ]
    found = probe.mean_figures(given)
    assert [one.case for one in found] == ["c%d" % at for at in range(100)]
    for at, one in enumerate(found[:20]):
        alone = {**given, "programs": {"p%d" % at: given["programs"]["p%d" % at]}, "cases": [given["cases"][at]]}
        assert [one] == probe.mean_figures(alone)


def test_a_refusal_is_that_of_the_scenario(program):
    given = with_program("(def (mss 1)) (when true (:= Cwnd nothing))")
    with pytest.raises(CcpError, match="Unknown"):
        probe.mean_figures(given)
    given = made_of("--senders", "reno,cubic")
    given["cases"][1]["queue"] = 0
    with pytest.raises(CcpError, match=r"cases\[1\]"):
        probe.mean_figures(given)


def test_a_window_after_the_end_has_no_figures(program):
    found = probe.mean_figures(with_program(TEXT), Window(500_000_000))[0]
    assert found.packets is None and found.throughput_mbps is None and found.end_s < 500


def test_metrics_with_means(program, tmp_path):
    """`ccp metrics --means` writes the lines that the texts of the runs give, but for percentiles and the like."""
    path, given = tmp_path / "scenario.json", made_of("--senders", "reno,linux-cubic", "--queue", "20,60")
    scenario_files.write_scenario(given, path)
    names = "case,packets,throughput_mbps,loss_rate,queueing_mean_ms,power,reports,epochs"
    found = run_inside("metrics", path, "--means", "--from", "0.1", "--until", "0.6", "--columns", names)
    assert found.output == metrics.csv_text(frames.figures(given, until_s=0.6, begin_s=0.1)[names.split(",")])
    grouped = run_inside("metrics", path, "--means", "--by", "sender", "--columns", "queueing_p95_ms,utilization")
    assert re.search(r"^reno,2,0,,,,2,0\.\d+,", grouped.output, re.MULTILINE), grouped


def test_what_metrics_refuses_with_means(tmp_path):
    path = tmp_path / "scenario.json"
    scenario_files.write_scenario(with_program(TEXT), path)
    refused = run_inside("metrics", path, "--means", "--orders", "all")
    assert refused.status == 2 and "--means runs the scenario itself" in refused.errors
    shared = {**with_program(TEXT), "shared": {"trace": "t", "queue": 9, "quantum_us": 1000, "rounds": 10}}
    scenario_files.write_scenario(shared, path)
    refused = run_inside("metrics", path, "--means")
    assert refused.status == 2 and "--means is of cases with a link each" in refused.errors


def test_means_are_made_without_pandas(program, repository):
    """Its import takes longer than a hundred cases."""
    words = "import sys; from ccp_tools import probe; print(sorted({'numpy', 'pandas'} & set(sys.modules)))"
    assert ran([sys.executable, "-c", words]).output == "[]\n"
