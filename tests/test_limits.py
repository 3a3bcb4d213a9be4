"""What passes a limit is refused once, with all limits and what fits; a trace is cut to exactly what a length needs."""
from __future__ import annotations

import json
import re
from pathlib import Path
from typing import List, Sequence

import pytest
from inside import run_inside
from support import EXAMPLES, TRACES, ccp, needs

from ccp_tools import traces
from ccp_tools.tables import LIMITS

# ways that a message names, as words that follow it
LENGTHS = {"--seconds": r"[0-9.]+", "--cut": r"[0-9]+", "--acks": r"[0-9]+", "--aggregate": r"[0-9]+"}
PROGRAM = EXAMPLES / "delay.portus"


@pytest.fixture(scope="module")
def long(tmp_path_factory: pytest.TempPathFactory) -> Path:
    """A link of 12 Mbit/s with gaps, of 158 s and 1.1 MB."""
    times = [time + 40 * (time // 700) for time in range(1, 150_000)]
    path = tmp_path_factory.mktemp("limits") / "long.trace"
    path.write_text(traces.trace_text(times))
    return path


def ways_of(message: str) -> List[List[str]]:
    """The ways out of a message, each as options."""
    ways = message.rpartition(": ")[2].split(", or ")
    return [
        [word for name, form in LENGTHS.items() for word in re.findall("(%s) (%s)" % (name, form), way)] for way in ways
    ]


def options_of(words: Sequence[object], way: Sequence[Sequence[str]]) -> List[object]:
    """The words of a command with the options of a way in place of those that they replace."""
    made = list(words)
    for name, value in way:
        if name in made:
            del made[made.index(name) : made.index(name) + 2]
        made = [name, value, *made]
    return made


@pytest.mark.parametrize(
    "words, limits",
    [
        ("--senders reno --seconds 158", ["a case has at most 65536", "one run has at most 1048576"]),
        ("--senders reno,cubic --queue 50,100,150 --seconds 60 --for acks", ["acknowledgements in all", "262144"]),
        (
            "--senders reno,cubic --queue 50,100,150 --acks 60000 --for acks",
            ["360000 acknowledgements in all", "bytes"],
        ),
        ("--senders reno", ["bytes (", "of traces), and one run has at most 1048576"]),
        ("--senders reno --whole", ["the case long-reno alone has"]),
        ("--senders reno --queue 1bdp --delay-ms 9000 --seconds 100", ["a queue of 1bdp", "may wait", "a case has"]),
    ],
)
def test_following_a_message_once_is_enough(long: Path, words: str, limits: List[str]) -> None:
    """Each way out is accepted, and the program runs its scenario."""
    given = [*words.split(), long]
    made = run_inside("scenario", *given)
    assert made.status == 1 and made.errors.count("\n") == 1 and not made.output, made.errors
    for part in limits:
        assert part in made.errors, made.errors
    ways = [way for way in ways_of(made.errors) if way]
    assert {name for way in ways for name, _ in way} >= {"--acks", "--cut"} if "--acks" in words else {"--aggregate"}
    for way in ways:
        if "a shorter queue" in made.errors and way[0][0] == "--seconds":
            way = [*way, ("--queue", "100")]
        followed = run_inside("scenario", *options_of(given, way), "--quiet")
        assert followed.status == 0, (way, followed.errors)


def test_the_numbers_that_fit_are_the_best(long: Path) -> None:
    """A millisecond more, a chance more, or one segment less in a packet doesn't fit."""
    given = ["--senders", "reno", "--seconds", "158", long]
    (seconds,), (count,) = ways_of(run_inside("scenario", *given).errors)
    longer = [("--seconds", "%.3f" % (float(seconds[1]) + 0.001))]
    assert run_inside("scenario", *options_of(given, longer)).status == 1
    assert int(count[1]) == 3 and run_inside("scenario", "--aggregate", 2, *given).status == 1


def test_no_aggregate_where_losses_are_by_chance(long: Path) -> None:
    """Figures there change with the size of a packet."""
    made = run_inside("scenario", "--senders", "reno", "--seconds", 140, "--losses", "rate:0.001", long)
    assert made.status == 1 and "--seconds " in made.errors and "--aggregate" not in made.errors


def test_a_quantum_that_fits(long: Path) -> None:
    """60 s in rounds of 5 ms are too many: the message says which quantum and which length fit."""
    words = ["--for", "shared", "--senders", "reno", "--seconds", "60"]
    made = run_inside("scenario", *words, "--shared", "long:100:5", long)
    text = "60 s are 12000 rounds, and a run has at most 10000: a quantum of 6 ms, or --seconds 50\n"
    assert made.status == 1 and made.errors.endswith(text), made.errors
    assert run_inside("scenario", *words, "--shared", "long:100:6", long).status == 0
    words[-1] = "50"
    assert run_inside("scenario", *words, "--shared", "long:100:5", long).status == 0


@needs("import pandas", "import matplotlib", "import jinja2")
def test_counts_and_lengths_in_one_message(long: Path) -> None:
    senders = ",".join("s%d=%s" % (number, PROGRAM) for number in range(14))
    made = run_inside("scenario", "--senders", senders, "--seconds", 140, long)
    wanted = ["14 programs: a scenario has at most 13", "a case has at most 65536", "at most 13 programs; --seconds 6"]
    assert made.status == 1 and all(part in made.errors for part in wanted), made.errors
    made = run_inside("compare", "--senders", senders, "--seconds", 140, "--dry-run", long)
    # more programs than one run takes are split, so that a length alone fits
    assert made.status == 1 and "a case has at most 65536" in made.errors and "programs" not in made.errors, made.errors
    options = [way[0] for way in ways_of(made.errors)]
    for name, value in options:
        words = ["--senders", senders, *(["--seconds", 140] if name != "--seconds" else []), name, value]
        followed = run_inside("compare", *words, "--dry-run", "--quiet", long)
        assert followed.status == 0, followed.errors


# ---- exactly what a length needs


@pytest.mark.parametrize("delay_ms", [0, 20, 333.3])
@pytest.mark.parametrize("until_s", [0.7, 5.04, 9.999])
def test_a_cut_trace_gives_the_acknowledgements_of_the_whole(long: Path, delay_ms: float, until_s: float) -> None:
    """Up to the length all acknowledgements are the same, also in a gap, with losses, and of a sender that idles."""
    times = traces.read_trace(long)[:12_000]
    kept = traces.needed_times(times, round(1e6 * until_s))
    assert len(kept) == traces.Trace(times).chances(round(1e6 * until_s)) + 1 and kept[-1] > 1000 * until_s
    case = {"agent": "reno", "mss": 1448, "queue": 60, "delay_us": round(1000 * delay_ms), "timeout_us": 300_000}
    cases = [dict(case, name="a", acks=11_000, losses=[3, 40, 41, 500]), dict(case, name="b", acks=9000, queue=1)]
    cases = [dict(one, trace="t") for one in cases]
    found = []
    for some in (times, kept):
        text = traces.trace_text(some)
        printed = ccp("acks", given=json.dumps({"version": 1, "traces": {"t": text}, "cases": cases})).output
        flows = printed.split("flow ")[1:]
        found.append([[line for line in flow.split("\n") if now_of(line) <= 1e6 * until_s] for flow in flows])
    assert found[0] == found[1] and len(found[0][0]) > 5


def now_of(line: str) -> float:
    """The time of a line of acknowledgements, or infinity."""
    found = re.search(r"\bnow=([0-9]+)", line)
    return int(found[1]) if found else float("inf")


def test_a_scenario_is_cut_where_it_is_too_long(long: Path) -> None:
    """And the cases are those of the whole trace, whose mean rate their queues follow."""
    words = ["--senders", "reno", "--queue", "1bdp", "--seconds", "60", long]
    made = run_inside("scenario", *words)
    assert made.status == 0 and len(made.output) < LIMITS["input_bytes"]
    assert made.errors.count("\n") == 1 and "a flow that takes longer than 60 s meets them again" in made.errors
    scenario = json.loads(made.output)
    times, whole = traces.trace_times(scenario["traces"]["long"]), traces.read_trace(long)
    assert times == traces.needed_times(whole, 60_000_000)
    link = traces.Trace(whole)
    assert scenario["cases"][0]["acks"] == link.chances(60_000_000 - 20_000)
    assert scenario["cases"][0]["queue"] == -(-20_000 * len(whole) // link.period_us)


def test_a_run_over_one_link_is_cut_where_it_ends(long: Path) -> None:
    words = ["--for", "shared", "--senders", "reno,cubic", "--shared", "long:100:7", "--seconds", "30", long]
    made = run_inside("scenario", *words)
    assert made.status == 0 and made.errors == "", made.errors
    assert traces.trace_times(json.loads(made.output)["traces"]["long"])[-1] in range(30_003, 30_050)


# ---- what is likely meant


@pytest.mark.parametrize(
    "words, said",
    [
        ("scenario --queue 100ms {trace}", "--queue: 100ms: a queue in milliseconds is --queue-ms 100\n"),
        ("scenario --queue 10,0.5s {trace}", "--queue: 0.5s: a queue in milliseconds is --queue-ms 500\n"),
        ("scenario --aqm codel {trace}", "unrecognized arguments: --aqm (ccp scenario --help lists the options)\n"),
        ("scenario --quue 5 {trace}", "(did you mean --queue?)"),
        ("explain {trace}", "this is a trace, and no input of ccp itself: `ccp compare {trace} --senders "),
    ],
)
def test_what_is_likely_meant(words: str, said: str, program: Path) -> None:
    made = run_inside(*words.format(trace=TRACES[0]).split())
    assert made.status == 2 and said.format(trace=TRACES[0]) in made.errors and "mss" not in made.errors, made.errors


@needs("import pandas", "import matplotlib", "import jinja2")
def test_the_options_of_compare_are_in_groups() -> None:
    """Each option is in the group that its name says, and none but --help, --quiet and --version in the first."""
    shown = run_inside("compare", "--help").output.partition("positional arguments:")[2].partition("\n\n")[2]
    groups = {
        group.partition(":")[0]: re.findall(r"^  (?:-h, )?(--[a-z-]+)", group, re.M) for group in shown.split("\n\n")
    }
    assert groups["options"] == ["--help", "--quiet", "--version"]
    wanted = {"senders": "--shared", "link": "--queue-ms", "length": "--from", "output": "--out"}
    assert all(option in groups[name] for name, option in wanted.items()), groups
