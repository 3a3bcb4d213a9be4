"""--set: senders with other numbers of their control variables; and more senders and programs than one run takes."""
from __future__ import annotations

import json

import pytest
from inside import run_inside
from support import EXAMPLES, TRACES, needs

from ccp_tools import controls, parts, probe, program, scenario, texts
from ccp_tools.errors import CcpError, UsageError
from ccp_tools.scenario_files import scenario_text

DELAY = EXAMPLES / "delay.portus"
TEXT = DELAY.read_text()
FIXED = TRACES[0]
MANY = ["--senders", "reno,d=%s" % DELAY, "--set", "high=3..16", "--acks", "200", str(FIXED)]


def made_of(*words: object) -> dict:
    return scenario.make(["--acks", "100", *map(str, words), str(FIXED)])


def test_a_sender_for_each_product_of_numbers():
    made = made_of("--senders", "reno,delay=cubic:%s" % DELAY, "--set", "high=4,9", "--set", "low=1..3:2")
    names = ["delay-high4-low1", "delay-high4-low3", "delay-high9-low1", "delay-high9-low3"]
    assert [case["sender"] for case in made["cases"]] == ["reno", *names] and list(made["programs"]) == names
    assert [(case.get("set_high"), case.get("set_low")) for case in made["cases"]] == [
        (None, None),
        (4, 1),
        (4, 3),
        (9, 1),
        (9, 3),
    ]
    assert made["programs"][names[3]] == controls.with_numbers(TEXT, {"high": 9, "low": 3})
    assert all(case["agent"] == "cubic" and case["ss"] == case["ca"] == case["sender"] for case in made["cases"][1:])


def test_a_sender_that_lacks_the_variable_stays_and_each_role_keeps_its_program(tmp_path):
    (tmp_path / "other.portus").write_text("(def (Report (x 0)) (high true) (mss 1)) (when true (report))")
    senders = "d=p,e=reno::p,f=reno:%s:p" % (EXAMPLES / "early.portus")
    made = made_of("--portus", "p=%s" % DELAY, "--senders", senders, "--set", "high=7")
    roles = [(case.get("ss"), case["ca"]) for case in made["cases"]]
    assert roles == [("d-high7",) * 2, (None, "e-high7.ca"), ("f-high7.ss", "f-high7.ca")]
    assert "(high 7)" in made["programs"]["e-high7.ca"] and "p" not in made["programs"]
    kept = made_of("--portus", "p=%s" % DELAY, "--senders", "d=p", "--set", "mss=7")
    assert kept["programs"] == {"d-mss7": controls.with_numbers(TEXT, {"mss": 7})}
    with pytest.raises(CcpError, match="the sender d-high3: the control variable high is true"):
        made_of("--senders", "d=%s" % (tmp_path / "other.portus"), "--set", "high=3")


@pytest.mark.parametrize(
    "words, error, line",
    [
        (
            ["--senders", "d=%s" % DELAY, "--set", "lo=3"],
            CcpError,
            "--set lo: no sender's own program declares it: d has",
        ),
        (["--set", "lo=3"], CcpError, "declares it: linux-reno has mss, window"),
        (["--senders", "reno", "--set", "low=3"], CcpError, "declares it: there is none"),
        (["--senders", "d=%s" % DELAY, "--set", "low=3", "--set", "low=4"], UsageError, "--set: low is there twice"),
        (["--set", "low"], UsageError, "low isn't NAME=1,2,4"),
        (["--set", "low=x"], UsageError, "x isn't a whole number"),
    ],
)
def test_what_set_refuses(words, error, line):
    with pytest.raises(error, match=line):
        made_of(*words)


def test_a_long_label_is_cut_before_its_numbers():
    label = 32 * "s"
    made = made_of("--senders", "%s=%s" % (label, DELAY), "--set", "high=4,5")
    assert [case["sender"] for case in made["cases"]] == [26 * "s" + "-high4", 26 * "s" + "-high5"]


# ---- more programs than one run takes


@needs("import pandas")
def test_parts_have_the_programs_that_one_run_takes(program_path, monkeypatch):
    with pytest.raises(CcpError, match="14 programs: a scenario has at most 13"):
        scenario.make(MANY)
    ran = run_inside("scenario", *MANY, "--whole", "--for", "timeline")
    assert ran.status == 0, ran
    whole = json.loads(ran.output)
    assert len(whole["programs"]) == 14
    made = parts.parts_of(ran.output.encode(), "timeline", 100)
    some = [json.loads(part.text) for part in made]
    assert [len(one["programs"]) for one in some] == [13, 1] and [len(one["cases"]) for one in some] == [14, 1]
    rows = [row for part in made for row in texts.read_table(program.run("campaign", part.text).output).rows]
    for row, case in zip(rows, whole["cases"]):
        alone = {**whole, "cases": [case]}
        alone["programs"] = {name: whole["programs"][name] for name in {case.get("ss", "")} if name}
        assert texts.read_table(program.run("campaign", scenario_text(alone)).output).rows == [row]
    found = probe.mean_figures(whole)
    assert [one.case for one in found] == [case["name"] for case in whole["cases"]]
    # also where programs can't measure themselves
    monkeypatch.setattr(probe, "is_accepted", lambda text, path: False)
    assert [one.packets for one in probe.mean_figures(whole)] == [one.packets for one in found]


@needs("import pandas", "import matplotlib", "import jinja2")
def test_a_comparison_of_more_senders_than_one_run_and_one_panel_take(program_path, tmp_path):
    words = ["compare", *MANY[:4], "--seconds", "0.5", FIXED]
    ran = run_inside(*words, "--out", tmp_path / "a")
    assert (
        ran.status == 0 and "part 2 of 2" in ran.errors and "15 senders, 8 a panel, so on several pages" in ran.errors
    )
    assert len(ran.output.splitlines()) >= 16 and (tmp_path / "a" / "bars-2.svg").exists()
    options = (tmp_path / "a" / "compare.toml").read_text()
    assert 'set = ["high=3,4,5,6,7,8,9,10,11,12,13,14,15,16"]\n' in options and options.count("delay.portus") == 1
    again = run_inside("compare", tmp_path / "a" / "compare.toml", "--dry-run")
    assert again.status == 0 and again.output.startswith("cases=15\n"), again
    ran = run_inside(*words, "--shared", "--out", tmp_path / "c")
    assert ran.status == 2 and "--shared: 15 senders, and at most 8 are shown together" in ran.errors


@needs("import pandas", "import scipy")
def test_figures_of_any_number_of_cases_are_those_of_parts_and_say_so_once(program_path, capsys, monkeypatch):
    import ccp_tools
    from ccp_tools import frames

    monkeypatch.setattr(frames, "SAID", [])
    queues = ["--queue", "10..14", "--whole", "--acks", "30"]
    made = scenario.make(["--for", "acks", *MANY[:4], *queues, str(FIXED)])
    found, again = ccp_tools.figures(made), ccp_tools.figures(scenario_text(made))
    assert list(found["case"]) == [case["name"] for case in made["cases"]] and len(found) == 75
    line = "ccp_tools.figures: 75 cases are more than one run takes: they are run in 2 parts\n"
    assert capsys.readouterr().err == line and found.equals(again)
    for at in (0, 70, 74):
        alone = parts.with_used_programs({**made, "cases": [made["cases"][at]]})
        one = ccp_tools.figures(alone)
        for name in ("throughput_mbps", "queueing_p95_ms", "reports", "set_high"):
            if name in one:
                assert found[name][at] == one[name][0] or found[name].isna()[at] and one[name].isna()[0], name
    made["cases"][70]["queue"] = 0
    with pytest.raises(CcpError, match=r"cases\[70\].queue"):
        ccp_tools.figures(made)
