"""`ccp tune`: control variables, the search, the goal with its floors, what is held out, the files, and what is
refused."""
from __future__ import annotations

import json
import random
import re
from pathlib import Path

import pytest
from inside import run_inside
from support import EXAMPLES, TRACES

from ccp_tools import controls, probe, program, scenario
from ccp_tools.errors import CcpError
from ccp_tools.probe import MeanFigures
from ccp_tools.spans import Window
from ccp_tools.tune import goals, options, runs, search
from ccp_tools.tune.search import Space, Trials

DELAY = EXAMPLES / "delay.portus"
FIXED, WAVE, TRAIN = TRACES
TEXT = DELAY.read_text()
NUMBERS = ["--numbers", "low=1..6,high=2..12", "--order", "low<high"]
SHORT = [*NUMBERS, "--over", FIXED, WAVE, "--held-out", TRAIN, "--seconds", "1", "--trials", "12"]


def one(case: str = "a", **figures: float) -> MeanFigures:
    return MeanFigures(case=case, end_s=1, reports=1, held=0, faults=int(figures.pop("faults", 0)), epochs=1, **figures)


def tuned(*words: object):
    return run_inside("tune", DELAY, *words)


# ---- control variables


def test_numbers_of_a_program_are_changed_and_nothing_else():
    assert [controls.number_of(TEXT, name) for name in ("low", "high", "most")] == [2, 4, 4096]
    changed = controls.with_numbers(TEXT, {"low": 31, "high": 7})
    assert changed == TEXT.replace("(low 2) (high 4)", "(low 31) (high 7)")
    text = "# (a 1)\n(def (Report (a 9) (volatile b 8)) (volatile a 3) (b +infinity))\n(when true (:= a 4))"
    assert controls.number_of(text, "a") == 3 and controls.number_of(text, "b") == 2**64 - 1
    assert controls.with_numbers(text, {"b": 5, "a": 6}) == text.replace("a 3)", "a 6)").replace("+infinity", "5")


@pytest.mark.parametrize(
    "name, line",
    [
        ("rtt", "delay.portus: it has no control variable rtt: there are mss, low, high"),
        ("starting", "the control variable starting is true, and a number is expected"),
    ],
)
def test_a_name_without_a_number_is_refused(name, line):
    with pytest.raises(CcpError, match=line):
        controls.number_of(TEXT, name, "delay.portus")


def test_programs_that_differ_in_declared_numbers_are_checked_once(program_path, monkeypatch):
    checked = []
    run = program.run
    monkeypatch.setattr(program, "run", lambda mode, *more, **how: (checked.append(mode), run(mode, *more, **how))[1])
    probe.is_accepted.cache_clear()
    words = ["--for", "timeline", "--acks", "50", str(FIXED)]
    for low in range(3):
        made = scenario.make(["--senders", "delay=%s" % DELAY, *words])
        made["programs"]["delay"] = controls.with_numbers(TEXT, {"low": low})
        probe.mean_figures(made)
    assert checked.count("check") == 1 and checked.count("timeline") == 3


# ---- the search


def trials_of(space: Space, score, seed: int = 1) -> Trials:
    return Trials(space, lambda some: [goals.Rating(0, score(*choice)) for choice in some], random.Random(seed))


def test_chance_then_steps_finds_a_peak_within_the_ranges_and_the_order():
    space = Space(("a", "b"), ((0, 1000), (1, 5000)), (("a", "b"),))
    found = []
    for seed in (1, 2, 3):
        trials = trials_of(space, lambda a, b: -abs(a - 137) - abs(b - 900) / 10, seed)
        trials.rate([(3, 4)])
        search.chance_then_steps(trials, 150)
        assert len(trials.tried) == 151 and all(0 <= a < b <= 5000 and a <= 1000 for a, b in trials.tried)
        found.append(list(trials.tried))
        assert trials.tried[trials.best].score > -25, (seed, trials.best)
    again = trials_of(space, lambda a, b: -abs(a - 137) - abs(b - 900) / 10, 1)
    again.rate([(3, 4)])
    search.chance_then_steps(again, 150)
    assert list(again.tried) == found[0] != found[1]


def test_few_choices_are_all_tried():
    trials = trials_of(Space(("a", "b"), ((1, 3), (2, 4)), (("a", "b"),)), lambda a, b: a - b)
    search.chance_then_steps(trials, 50)
    assert sorted(trials.tried) == [(1, 2), (1, 3), (1, 4), (2, 3), (2, 4), (3, 4)] and trials.best == (1, 2)


def test_without_optuna_the_search_by_it_says_so():
    pytest.importorskip("sys").modules.setdefault("optuna", None)
    with pytest.raises(CcpError, match="the Python module optuna isn't installed"):
        search.optuna(trials_of(Space(("a",), ((1, 3),)), lambda a: a), 3)


# ---- the goal


def test_a_missed_floor_counts_more_than_any_score():
    floors = [goals.floor("utilization >= 0.9"), goals.floor("loss_rate<=0.01")]
    fast = one(throughput_mbps=90.0, utilization=0.8, loss_rate=0.0)
    slow = one(throughput_mbps=1.0, utilization=0.9, loss_rate=0.01)
    lossy = one(throughput_mbps=90.0, utilization=0.95, loss_rate=0.03)
    order = [goals.rating([each], "throughput", floors) for each in (slow, fast, lossy)]
    assert order == sorted(order, reverse=True) and order[0].short == 0
    assert goals.rating([slow, one(faults=1)], "throughput", floors) == goals.FAULTY < order[-1]


@pytest.mark.parametrize(
    "goal, before, after, ratio",
    [
        ("power", {"power": 0.2}, {"power": 0.3}, 1.5),
        ("throughput", {"throughput_mbps": 8.0}, {"throughput_mbps": 4.0}, 0.5),
        ("wait", {"queueing_mean_ms": 5.0}, {"queueing_mean_ms": 2.0}, 2),
        (
            "utility",
            {"throughput_mbps": 8.0, "rtt_mean_ms": 40.0, "loss_rate": 0.0},
            {"throughput_mbps": 8.0, "rtt_mean_ms": 20.0, "loss_rate": 0.0},
            2,
        ),
        ("power", {"power": 0.2}, {}, 5e-9),
    ],
)
def test_a_gain_is_the_ratio_of_the_goal(goal, before, after, ratio):
    assert goals.gains(goal, [one(**before)], [one(**after)]) == [pytest.approx(ratio)]
    assert goals.geometric_mean([2, 8]) == pytest.approx(4)


# ---- the command


def test_new_numbers_and_the_files_that_make_them_again(program_path, tmp_path):
    words = [*SHORT, "--goal", "wait", "--floor", "utilization>=0.8", "--queue", "1bdp,50", "--delay-ms", "15"]
    ran = tuned(*words, "--out", tmp_path / "a")
    assert ran.status == 0 and "low 2 -> 1, high 4 -> 2: an improvement\n" in ran.output, ran
    names = sorted(path.name for path in (tmp_path / "a").iterdir())
    assert names == ["delay.portus", "files.json", "table.txt", "tune.json", "tune.toml"]
    assert (tmp_path / "a" / "delay.portus").read_text() == controls.with_numbers(TEXT, {"low": 1, "high": 2})
    assert (tmp_path / "a" / "table.txt").read_text() == ran.output
    again = run_inside("tune", tmp_path / "a" / "tune.toml", "--workers", "1", "--quiet", "--out", tmp_path / "b")
    assert (again.status, again.output, again.errors) == (0, ran.output, "")
    for name in names:
        assert (tmp_path / "a" / name).read_bytes() == (tmp_path / "b" / name).read_bytes(), name
    data = json.loads((tmp_path / "a" / "tune.json").read_text())
    assert data["tuned"] == {"low": 1, "high": 2} and data["is_improvement"] and len(data["trials"]) == 13


def test_each_held_out_link_is_printed_with_what_the_program_has_there(program_path, tmp_path):
    ran = tuned(*SHORT, "--queue", "20,100", "--out", tmp_path / "out")
    lines = [line.split() for line in ran.output.splitlines() if " held out " in line and not line.startswith("power")]
    assert [line[0] for line in lines] == ["train-q20", "train-q100"]
    made = scenario.make(["--senders", "delay=%s" % (tmp_path / "out" / "delay.portus"), "--queue", "100", str(TRAIN)])
    made["cases"][0]["acks"] = 5000
    found = probe.mean_figures(made, Window(0, 1_000_000))[0]
    held_out = json.loads((tmp_path / "out" / "tune.json").read_text())["held_out"][1]["after"]
    assert held_out["throughput_mbps"] == pytest.approx(found.throughput_mbps)
    assert held_out["queueing_mean_ms"] == pytest.approx(found.queueing_mean_ms)
    assert lines[1][6] == "%.2f" % found.throughput_mbps, lines


def test_a_gain_that_costs_much_on_a_held_out_link_is_no_improvement(program_path, tmp_path):
    # a link that pauses half of the time, on which a long queue pays
    (tmp_path / "square.trace").write_text("".join("%d\n" % (50 + at // 3) for at in range(150)))
    ran = tuned(*SHORT, "--numbers", "low=1..20,high=2..40", "--over", tmp_path / "square.trace", "--held-out", FIXED)
    assert ran.status == 1 and ": no improvement\n" in ran.output and "an improvement" not in ran.output
    assert "training x1.0" in ran.output and "held out x0.4" in ran.output, ran
    assert re.search("no improvement: power is [0-9.]+ % worse on the held-out link fixed; ", ran.errors), ran
    before, after = [one("a", power=1.0), one("b", power=1.0)], [one("a", power=9.0), one("b", power=0.94)]
    found = command_outcome(before, after)
    assert found.doubts() == ["power is 6.0 % worse on the held-out link b"]
    after[1] = one("b", power=0.951)
    assert command_outcome(before, after).doubts() == []


def command_outcome(before, after):
    from ccp_tools.tune.command import Outcome

    return Outcome(Space(("a",), ((1, 3),)), "power", [], (1,), (2,), [before, after], [before, after])


def test_a_program_that_faults_is_never_chosen(program_path, tmp_path):
    text = "(def (Report (x 0)) (mss 1) (part 3)) (when true (:= Report.x (/ 9 part)) (:= Cwnd (* mss (* 2 part))))"
    (tmp_path / "own.portus").write_text(text)
    words = ["--numbers", "part=0..3", "--over", FIXED, WAVE, "--seconds", "1", "--goal", "wait"]
    ran = run_inside("tune", tmp_path / "own.portus", *words, "--floor", "utilization<=0.1", "--out", tmp_path / "out")
    data = json.loads((tmp_path / "out" / "tune.json").read_text())
    assert {"numbers": {"part": 0}, "faults": True} in data["trials"] and data["tuned"]["part"] > 0, ran


def test_a_third_of_the_traces_is_held_out_where_none_is_named(program_path):
    ran = tuned(*NUMBERS, "--over", FIXED, WAVE, TRAIN, "--seconds", "0.5", "--trials", "2")
    assert "ccp tune: held out: wave\n" in ran.errors and "wave   held out" in ran.output, ran


def test_a_search_takes_few_runs_of_the_program(program_path, monkeypatch):
    """Most of the time of 96 trials on 6 links is the simulation."""
    modes = []
    run = program.run
    monkeypatch.setattr(program, "run", lambda mode, *more, **how: (modes.append(mode), run(mode, *more, **how))[1])
    words = [*NUMBERS, "--over", FIXED, WAVE, "--held-out", TRAIN, "--queue", "20,50,100", "--seconds", "0.5"]
    tuned(*words, "--trials", "60", "--order", "low<high")
    assert 10 < len(modes) < 30, modes


@pytest.mark.parametrize(
    "words, line",
    [
        ([], "--numbers NAME=LOW..HIGH,.. is expected"),
        (NUMBERS, "--over TRACE.. is expected"),
        ([*NUMBERS, "--over", FIXED], "one trace: --held-out TRACE names another one"),
        ([*NUMBERS, "--over", FIXED, FIXED], "the trace fixed-2 is there twice (as fixed)"),
        ([*NUMBERS, "--over", FIXED, "--held-out", "a=%s" % FIXED], "the trace a is in --over and in --held-out"),
        (["--numbers", "low=6..1"], "low=6..1 isn't NAME=LOW..HIGH"),
        (["--numbers", "low=1..6,low=1..2"], "--numbers: low is there twice"),
        (["--numbers", "low=1..6", "--order", "low<high"], "--numbers has no high"),
        (["--numbers", "low=4..6,high=1..4", "--order", "low<high"], "no numbers of these ranges keep it"),
        ([*SHORT, "--goal", "wait"], "--goal wait needs a floor, as --floor 'utilization>=0.9'"),
        ([*SHORT, "--floor", "queueing_p95_ms<=9"], "the figures are utilization"),
        ([*SHORT, "--floor", "utilization"], "FIGURE>=NUMBER or FIGURE<=NUMBER is expected"),
        ([*SHORT, "--from", "1"], "--from 1: --seconds is 1"),
        ([*SHORT, "--numbers", "lo=1..6"], "--order low<high: --numbers has no low"),
    ],
)
def test_words_that_are_refused(program_path, words, line):
    ran = tuned(*words)
    assert ran.status == 2 and line in ran.errors and ran.errors.count("\n") == 1, ran


def test_files_that_are_refused(program_path, tmp_path):
    own = tmp_path / "delay.portus"
    own.write_text(TEXT)
    ran = run_inside("tune", own, *SHORT, "--out", tmp_path)
    assert ran.status == 1 and "delay.portus: this command writes a file of this name" in ran.errors and not ran.output
    assert own.read_text() == TEXT
    ran = run_inside("tune", "reno", *SHORT)
    assert ran.status == 2 and "a program is tuned" in ran.errors, ran
    file = tmp_path / "tune.toml"
    for text, line in (
        ("numbers = 3\n", "program: a text is expected"),
        ('program = "a"\nout = "b"\n', "out: the command line alone says"),
        ('program = "a"\nhurry = 3\n', "unrecognized arguments: --hurry=3"),
    ):
        file.write_text(text)
        ran = run_inside("tune", file)
        assert ran.status == 1 and line in ran.errors and str(file) in ran.errors, ran


def test_words_beside_a_file_go_before_it(program_path, tmp_path):
    run_inside("tune", DELAY, *SHORT, "--out", tmp_path / "out")
    file = tmp_path / "out" / "tune.toml"
    ran = run_inside("tune", file, "--trials", "1", "--goal", "utility")
    assert "ccp tune: 1 trials" in ran.errors and "\nutility, " in ran.output, ran
    assert Path(file).read_text().startswith("# ccp tune tune.toml --out DIR\nprogram = ")


def test_a_link_has_the_queue_of_its_whole_trace(program_path):
    """A trace is cut to what is measured of it, and its mean rate stays that of the recording."""
    words = ["x", *map(str, SHORT), "--queue", "2bdp"]
    parser = options.Parser(prog="ccp tune")
    options.add_arguments(parser)
    tuned_program = runs.tuned_of(str(DELAY), program.find_program(), [])
    made = options.links_of(parser.parse_args(words), tuned_program).short()
    whole = scenario.make(["--queue", "2bdp", "--senders", "reno", *map(str, TRACES)])
    queues = {case["trace"]: case["queue"] for case in whole["cases"]}
    assert {case["trace"]: case["queue"] for case in made["cases"]} == queues
    assert len(made["traces"]["wave"]) < len(whole["traces"]["wave"])
