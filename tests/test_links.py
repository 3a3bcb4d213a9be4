"""--link and [[links]]: each recording with its own delay, queue, losses, marks, timeout and segments."""
from __future__ import annotations

import pytest
from inside import run_inside
from support import TRACES, needs

from ccp_tools import scenario
from ccp_tools.errors import CcpError, UsageError

FIXED, WAVE, _ = TRACES
OWN = "a=%s:delay=50,queue=1bdp,losses=rate:0.01" % FIXED


def made_of(*words: object) -> dict:
    return scenario.make(["--senders", "reno", "--acks", "100", *map(str, words)])


def test_a_link_has_its_own_conditions_and_the_others_of_the_grid():
    words = ["--link", OWN, "--link", "%s:queue=30ms,timeout=300,mss=1000,mark=5" % FIXED, "--link", WAVE]
    made = made_of(*words, "--delay-ms", "33", "--seeds", "4,5", "--lag", "2")
    cases = {case["name"]: case for case in made["cases"]}
    assert list(cases) == ["a-reno-s4", "a-reno-s5", "fixed-reno", "wave-reno"]
    first, second, third = (cases[name] for name in ("a-reno-s4", "fixed-reno", "wave-reno"))
    assert (first["delay_us"], first["queue"], first["loss"], first["seed"]) == (50_000, 50, "rate:0.01", 4)
    assert (second["queue"], second["timeout_us"], second["mss"], second["mark"]) == (30, 300_000, 1000, 5)
    assert (second["delay_us"], third["delay_us"], third["queue"], third["mss"]) == (33_000, 33_000, 100, 1448)
    assert all(case["lag"] == 2 for case in cases.values()) and "mark" not in third and third["timeout_us"] == 1_000_000
    alone = made_of(
        "--delay-ms", "50", "--queue", "1bdp", "--losses", "rate:0.01", "--seeds", "4,5", "--lag", "2", "a=%s" % FIXED
    )
    assert alone["cases"] == [cases["a-reno-s4"], cases["a-reno-s5"]]


def test_links_come_after_the_traces_of_the_grid_and_with_its_lists():
    made = made_of(WAVE, "--queue", "20,40", "--link", "%s:delay=7" % FIXED)
    seen = [(case["name"], case["delay_us"], case["queue"]) for case in made["cases"]]
    assert seen == [
        ("wave-reno-q20", 20_000, 20),
        ("wave-reno-q40", 20_000, 40),
        ("fixed-reno-q20", 7_000, 20),
        ("fixed-reno-q40", 7_000, 40),
    ]


@pytest.mark.parametrize(
    "word, line",
    [
        ("%s:delay=x" % FIXED, "x isn't a number of ms"),
        ("%s:dely=3" % FIXED, "dely=3: KEY=VALUE is expected, where KEY is delay, queue, losses"),
        ("%s:delay=3,delay=2" % FIXED, "delay is there twice"),
        ("%s:queue=1..3" % FIXED, "1..3: a link has one queue"),
        ("%s:queue" % FIXED, "No such file"),
        ("", "No such file"),
    ],
)
def test_what_a_link_refuses(word, line):
    with pytest.raises(CcpError, match=line):
        made_of("--link", word)


def test_a_scenario_needs_a_trace_or_a_link():
    with pytest.raises(UsageError, match="the following arguments are required: .NAME=.TRACE-FILE"):
        made_of()
    with pytest.raises(UsageError, match="--aggregate 50: packets of 100000 bytes"):
        made_of("--link", "%s:mss=2000" % FIXED, "--aggregate", "50")


@needs("import pandas", "import matplotlib", "import jinja2")
def test_links_of_a_file_are_one_comparison(program, tmp_path):
    file = tmp_path / "compare.toml"
    text = """senders = ["reno"]
seconds = 0.4
[[links]]
name = "a"
trace = "%s"
delay-ms = 50
queue = "1bdp"
[[links]]
trace = "%s"
queue = 40
timeout-ms = 150
"""
    file.write_text(text % (FIXED, WAVE))
    ran = run_inside("compare", file, "--out", tmp_path / "out", "--quiet")
    assert ran.status == 0 and [line.split()[0] for line in ran.output.splitlines()[1:3]] == ["a", "wave"], ran
    cases = scenario.read_scenario(tmp_path / "out" / "scenario.json")["cases"]
    assert [(one["delay_us"], one["queue"], one["timeout_us"]) for one in cases] == [
        (50_000, 50, 1_000_000),
        (20_000, 40, 150_000),
    ]
    assert "a: a=%s:delay=50,queue=1bdp" % FIXED in (tmp_path / "out" / "report.html").read_text()
    again = run_inside("compare", tmp_path / "out" / "compare.toml", "--dry-run", "--quiet")
    assert again.output.splitlines()[:2] == ["cases=2", "acknowledgements=%d" % sum(one["acks"] for one in cases)]
    for wrong, line in (
        ("[[links]]\nname = 3\n", "a text `trace` is expected"),
        ("[[links]]\ntrace = 'x'\nd = 3\n", "links: d: one value"),
    ):
        file.write_text(wrong)
        ran = run_inside("compare", file, "--out", tmp_path / "out")
        assert ran.status == 1 and line in ran.errors and str(file) in ran.errors, ran
