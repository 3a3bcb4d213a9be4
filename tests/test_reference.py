"""The reference model against the program: over random scenarios by hypothesis, over the examples, and by the
generator."""
from __future__ import annotations

import json
import re
import sys
from pathlib import Path
from random import Random
from typing import Any, Callable, Dict

import pytest
from support import EXAMPLES, REPOSITORY, ran, require

from ccp_tools import program as programs
from ccp_tools import reference
from ccp_tools.reference import generate, inputs, language, syntax
from ccp_tools.reference.flow import TEXTS
from ccp_tools.tables import AGENTS, BUILT_INS

hypothesis = require("hypothesis")
from hypothesis import HealthCheck, given, seed, settings, strategies  # noqa: E402

OF_MODES: Dict[str, Callable[[Any], str]] = {
    "campaign": reference.campaign,
    "timeline": reference.timeline,
    "acks": reference.acks,
}
RUNS = settings(
    # a run of the program each; what is drawn is the same in every run
    deadline=None,
    max_examples=60,
    derandomize=True,
    database=None,
    suppress_health_check=[HealthCheck.function_scoped_fixture, HealthCheck.too_slow, HealthCheck.data_too_large],
)


# ---- scenarios that hypothesis draws, and makes smaller where one differs

TRACES = strategies.lists(strategies.integers(0, 9), min_size=1, max_size=8).map(
    lambda gaps: "".join("%d\n" % sum(gaps[: at + 1]) for at in range(len(gaps))) + "%d\n" % (sum(gaps) + 1)
)
LOSSES = strategies.sets(strategies.integers(0, 120), max_size=12).map(sorted)
CASES = strategies.fixed_dictionaries(
    {
        "agent": strategies.sampled_from(sorted(AGENTS)),
        "trace": strategies.just("t"),
        "mss": strategies.sampled_from([1, 536, 1448, 2191, 65535]),
        "queue": strategies.integers(1, 60),
        "delay_us": strategies.integers(0, 100_000),
        "timeout_us": strategies.integers(1, 2_000_000),
        "acks": strategies.integers(0, 150),
    },
    optional={
        "losses": LOSSES,
        "mark": strategies.integers(1, 30),
        "slots": strategies.integers(1, 64),
        "lag": strategies.integers(0, 12),
    },
)


def scenario(trace: str, cases: Any, text: str = "") -> Dict[str, Any]:
    """A scenario of some cases; where there is a program, the first case runs it."""
    made = [dict(case, name="c%d" % at) for at, case in enumerate(cases)]
    if text:
        made[0].update(ss="p", ca="p")
    return {"version": 1, "programs": {"p": text} if text else {}, "traces": {"t": trace}, "cases": made}


@pytest.mark.parametrize("mode", OF_MODES)
@seed(20260101)
@RUNS
@given(TRACES, strategies.lists(CASES, min_size=1, max_size=3))
def test_link_and_agents(program: Path, mode: str, trace: str, cases: Any) -> None:
    made = scenario(trace, cases)
    assert programs.run(mode, made, program=program).output == OF_MODES[mode](made)


@pytest.mark.parametrize("mode", OF_MODES)
@seed(20260102)
@RUNS
@given(strategies.randoms(use_true_random=False), TRACES, CASES)
def test_programs_on_the_link(program: Path, mode: str, draw: Random, trace: str, case: Any) -> None:
    made = scenario(trace, [case], inputs.Programs(draw, set()).text())
    assert programs.run(mode, made, program=program).output == OF_MODES[mode](made)


OF_SHARED = {
    "shared": reference.shared,
    "shared-timeline": reference.shared_timeline,
    "shared-acks": reference.shared_acks,
}
SHARED = strategies.fixed_dictionaries(
    {
        "trace": strategies.just("t"),
        "queue": strategies.integers(1, 80),
        "quantum_us": strategies.integers(1, 200_000),
        "rounds": strategies.integers(1, 150),
    }
)


@seed(20260104)
@RUNS
@given(TRACES, strategies.lists(CASES, max_size=4), SHARED)
def test_flows_over_one_bottleneck(program: Path, trace: str, cases: Any, shared: Any) -> None:
    made = {**scenario(trace, cases), "shared": shared}
    for mode, of in OF_SHARED.items():
        assert programs.run(mode, made, program=program).output == of(made)


@seed(20260103)
@RUNS
@given(strategies.randoms(use_true_random=False))
def test_programs_over_acknowledgements(program: Path, draw: Random) -> None:
    text = inputs.Programs(draw, set()).text()
    acks = inputs.acknowledgements(draw, draw.randrange(40), set())
    whole = text + "\n---\n" + "".join(inputs.ack_text(draw, ack) for ack in acks)
    assert programs.run("fold", whole, program=program).output == reference.fold(text, acks)
    assert programs.run("check", text, program=program).output.split("\n")[0] == reference.check_summary(text)


# ---- examples and pages


@pytest.mark.parametrize("name", ["campaign", "live"])
def test_examples(program: Path, name: str) -> None:
    """Each agent has every case that loses packets."""
    made = json.loads((EXAMPLES / (name + ".json")).read_text(encoding="utf-8"))
    cases = [{**case, "acks": min(case["acks"], 400)} for case in made["cases"][:12]]
    others = [
        {**case, "agent": agent} for case in cases if "losses" in case for agent in AGENTS if agent != case["agent"]
    ]
    made["cases"] = cases + others
    for mode, of in OF_MODES.items():
        assert programs.run(mode, made, program=program).output == of(made)


@pytest.mark.parametrize("name", ["shared", "delay-shared"])
def test_examples_of_shared(program: Path, name: str) -> None:
    made = json.loads((EXAMPLES / (name + ".json")).read_text(encoding="utf-8"))
    made["shared"]["rounds"] = 600
    for mode, of in OF_SHARED.items():
        assert programs.run(mode, made, program=program).output == of(made)


@pytest.mark.parametrize("path", sorted(EXAMPLES.glob("*.ccp")), ids=lambda path: path.stem)
def test_examples_of_fold(path: Path) -> None:
    text, _, lines = path.read_text(encoding="utf-8").partition("\n---\n")
    acks = [
        {name: int(value) for name, _, value in (word.partition("=") for word in line.split())}
        for line in lines.split("\n")
        if line.strip()
    ]
    assert reference.fold(text + "\n", acks) == path.with_suffix(".out").read_text(encoding="utf-8")


def test_ten_calls_of_the_page() -> None:
    """The table of docs/link.md."""
    case = {"mss": 1500, "queue": 3, "delay_us": 10_000, "timeout_us": 100_000, "losses": [7], "mark": 2}
    link = reference.link.Link(reference.link.Trace("2\n4\n6\n"), case)
    page = (REPOSITORY / "docs" / "link.md").read_text(encoding="utf-8")
    rows = [line.strip("|").split("|") for line in page.split("\n") if re.match(r"\| [0-9]+ \| [0-9]+ \|", line)]
    assert len(rows) == 10
    for row in rows:
        cells = [cell.strip() for cell in row]
        ack = link.next(int(cells[1]))
        seen = (ack["now"] // 1000, ack["rtt_sample_us"] // 1000, ack["lost_pkts_sample"], ack["packets_in_flight"])
        assert [str(one) for one in seen] == [cells[5], cells[6], cells[7], cells[9]], row
        assert ("yes" if ack["ecn_packets"] else "no") == cells[8]


def test_the_operators_are_those_of_the_page() -> None:
    """The page's table, the definition, and what the model evaluates."""
    page = (REPOSITORY / "docs" / "language.md").read_text(encoding="utf-8")
    rows = re.findall(r"^\| `(\S+)` \| `(\w+)` \| (\d+) \|", page, re.MULTILINE)
    shown = {text: word for mark, word, _ in rows for text in (mark.replace("\\|", "|"), word)}
    assert shown == syntax.OPERATORS and set(language.MEANINGS) == set(shown.values())
    definition = (REPOSITORY / "crates/ccp_base/specs/Operations.antt").read_text(encoding="utf-8")
    for mark, word, number in rows:
        assert 'row %s (codes "%s") (codes "%s")' % (number, word, mark.replace("\\|", "|")) in definition


@pytest.mark.parametrize("name", BUILT_INS)
def test_the_package_has_the_built_in_programs(name: str) -> None:
    assert (TEXTS / (name + ".portus")).read_bytes() == (EXAMPLES / (name + ".portus")).read_bytes()


# ---- the generator


def test_each_input_is_made_again() -> None:
    for index in range(12):
        tries = [generate.Tries(5, "ccp", list(generate.TRIALS)).trial(index) for _ in range(2)]
        assert tries[0][0] == tries[1][0] and tries[0][1].data == tries[1][1].data


def test_the_generator(program: Path) -> None:
    """A few inputs; the gate runs 2,000."""
    words = [
        "--count",
        "24",
        "--seed",
        "3",
        "--ccp",
        program,
        "--jobs",
        "2",
        "--trials",
        "check,fold,feed,timeline,audit",
    ]
    done = ran([sys.executable, "-m", "ccp_tools.reference.generate", *words])
    assert done.status == 0 and not done.errors, done.output
    assert "24 inputs in" in done.output and "0 failed" in done.output


def test_the_generator_finds_what_is_wrong(tmp_path: Path, program: Path) -> None:
    """A program that is out of memory at times, one that prints another number, and one that refuses nothing."""
    text = '#!/bin/sh\nif [ "$1" = %s ]; then %s; fi\nexec ' + str(program) + ' "$@"\n'
    broken = {
        "fold": ("cat > /dev/null; echo 'ccp: no memory' >&2; exit 6", "fold ended with status 6"),
        "timeline": ("%s \"$@\" | sed 's/cwnd=/cwnd=1/'; exit 0" % program, "and is expected to be"),
        "campaign": ("cat > /dev/null; exit 0", "expected is ccp: input refused: "),
    }
    for mode, (instead, said) in broken.items():
        path = tmp_path / mode
        path.write_text(text % (mode, instead), encoding="utf-8")
        path.chmod(0o755)
        trials = "refused scenario" if mode == "campaign" else mode
        words = ["--count", "3", "--ccp", path, "--jobs", "1", "--trials", trials]
        done = ran([sys.executable, "-m", "ccp_tools.reference.generate", *words])
        assert done.status == 1 and said in done.output, done.output


def test_arguments_of_the_generator() -> None:
    for words in (["--count", "0"], ["--trials", "fold,nothing"], ["x"]):
        done = ran([sys.executable, "-m", "ccp_tools.reference.generate", *words])
        assert done.status == 2 and done.errors.startswith("generate: ") and done.errors.count("\n") == 1
