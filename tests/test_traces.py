"""Tests of `ccp trace`: what shows, changes and makes traces."""
from __future__ import annotations

import json
import subprocess
import sys
from pathlib import Path
from typing import Any, Dict, List

import pytest
from inside import run_inside
from support import REPOSITORY, TRACES, Ran, ccp

from ccp_tools.errors import CcpError
from ccp_tools.traces import Trace, read_trace, trace_text, trace_times

MAKERS = [("lte",), ("wifi",), ("satellite",), ("steps", "--rates", "12,3,24", "--every", "2")]


def trace(*words: object, given: str | bytes | None = None) -> Ran:
    return run_inside("trace", *words, given=given)


def made(*words: object, given: str | bytes | None = None) -> str:
    """What a command prints, which ends well and says nothing beside; warnings of gaps have tests of their own."""
    ran = trace(*words, "--quiet", given=given)
    assert (ran.status, ran.errors) == (0, "")
    return ran.output


def times(text: str) -> List[int]:
    return [int(line) for line in text.split()]


def info(*words: object, given: str | None = None) -> Dict[str, Any]:
    found: Dict[str, Any] = json.loads(made("info", "--quiet", "--json", *words, given=given))[0]
    return found


def refused(status: int, part: str, *words: object, given: str | bytes | None = None) -> None:
    """The command refuses its words or its input by one line that has the part."""
    ran = trace(*words, given=given)
    assert ran.status == status and not ran.output, ran.errors
    assert ran.errors.startswith("ccp trace: ") and ran.errors.count("\n") == 1
    assert part in ran.errors


# ---- the class


def test_chances_of_a_trace() -> None:
    one = Trace([0, 2, 2, 5])
    assert one.period_us == 5000
    assert [one.chance_us(k) for k in range(6)] == [0, 2000, 2000, 5000, 5000, 7000]
    assert [one.chances(until) for until in (-1, 0, 1999, 2000, 4999, 5000, 7000)] == [0, 1, 1, 3, 3, 5, 7]
    for wrong in ([], [2, 1], [0], [-1, 2], [3_600_001]):
        with pytest.raises(CcpError):
            Trace(wrong)


def test_texts_of_traces() -> None:
    assert trace_times(" 1\r\n\n\t2 \n2") == [1, 2, 2]
    assert trace_text([1, 2]) == "1\n2\n"
    assert trace_times("4000000", longest=None) == [4_000_000]
    wrong = {"": "no time", "0\n0\n": "last time is 0", "1\nx": ":2: no whole number", "3\n1": ":2: 1 comes after 3"}
    wrong.update({"4000000": "at most 3600000", "1.5": ":1: no whole", "-1": ":1: no whole", "\ufeff1": "byte order"})
    wrong.update({"9" * 5000: "no whole number", "١": "no whole number"})
    for text, part in wrong.items():
        with pytest.raises(CcpError, match=part):
            trace_times(text, "x")


# ---- what it shows


def test_info() -> None:
    found = info(TRACES[2])
    assert (found["chances"], found["seconds"], found["mean_mbps"]) == (10600, 8, 15.9)
    # from the last chance before the gap to the first after it
    assert (found["gap_most_ms"], found["gaps_over_100_ms"], found["gaps_over_1000_ms"]) == (1501, 3, 1)
    assert (found["window_least_mbps"], found["window_most_mbps"], found["most_in_a_millisecond"]) == (0, 24, 2)
    small = info("--window", "5", "-", given="1\n1\n3\n5\n10\n")
    assert (small["mean_mbps"], small["window_most_mbps"], small["window_least_mbps"]) == (6, 9.6, 2.4)
    assert small["gap_most_ms"] == 5
    shown = trace("info", TRACES[2])
    assert "mean_mbps             15.9" in shown.output and "3 gaps longer than 200 ms" in shown.errors


def test_cut() -> None:
    assert times(made("cut", "--from", 3, "--to", 8, "-", given="1\n3\n4\n8\n9\n")) == [1, 5]
    assert times(made("cut", "--to", 4, "-", given="0\n1\n4\n5\n")) == [0, 1, 4]


def test_scale() -> None:
    half = times(made("scale", "--rate", "0.5", TRACES[2]))
    assert len(half) == 5300 and half[-1] == 8000
    assert info("-", given=trace_text(half))["gap_most_ms"] == 1501
    assert times(made("scale", "--rate", 2, "-", given="1\n5\n")) == [1, 1, 5, 5]
    assert made("scale", "--rate", 1, TRACES[1]) == TRACES[1].read_text()
    assert info("-", given=made("scale", "--mean", 6, TRACES[1]))["mean_mbps"] == 6
    assert times(made("scale", "--time", 2.5, "-", given="1\n2\n5\n")) == [2, 5, 12]


@pytest.mark.parametrize("words", [("lte", "--mean", "9"), ("wifi", "--mean", "9"), ("satellite", "--mean", "15")])
def test_a_mean_is_exact(words: tuple[str, ...]) -> None:
    """To three digits, for whatever seed; with a highest rate it is what that rate leaves."""
    for seed in (1, 2):
        found = info("-", given=made(*words, "--seconds", 20, "--seed", seed))
        assert "%.3g" % found["mean_mbps"] == words[2], found
    packet = ["--packet", "1000"]
    assert "%.3g" % info(*packet, "-", given=made("wifi", "--mean", "5.67", *packet))["mean_mbps"] == "5.67"
    assert info("-", given=made("lte", "--mean", 12, "--max", 13, "--seconds", 20))["mean_mbps"] < 12


# ---- what it makes


@pytest.mark.parametrize("words", MAKERS, ids=lambda words: words[0])
def test_makers(words: tuple[str, ...]) -> None:
    """The same seed makes the same trace, another one another; each is of about the mean that is asked for."""
    text = made(*words, "--seconds", 40)
    assert text == made(*words, "--seconds", 40)
    found = info("-", given=text)
    assert 38 < found["seconds"] <= 40 and 8 < found["mean_mbps"] < 17
    if words[0] != "steps":
        assert text != made(*words, "--seconds", 40, "--seed", 2)
        other = made(*words, "--seconds", 60, "--seed", 3, "--mean", 4)
        assert 2.5 < info("-", given=other)["mean_mbps"] < 6


def test_synthetic_traces_are_the_same_everywhere() -> None:
    """The beginning of each, as every machine and every version of Python makes it."""
    short = ["--seconds", "0.1", "--seed", "7"]
    assert times(made("lte", *short))[:12] == LTE
    assert times(made("wifi", *short))[:40:4] == WIFI
    assert times(made("satellite", *short))[:8] == SATELLITE
    every = ["--every", "0.003", "--seconds", "0.008"]
    assert times(made("steps", "--rates", "12,24", *every)) == [1, 2, 3, 4, 4, 5, 5, 6, 6, 7, 8]


LTE = [1, 2, 3, 4, 6, 7, 7, 8, 8, 9, 10, 12]
WIFI = [1, 1, 1, 6, 6, 6, 6, 6, 16, 16]
SATELLITE = [60, 61, 62, 63, 64, 65, 67, 68]


def test_max_is_the_highest_rate() -> None:
    words = ["lte", "--seconds", 5, "--mean", 12]
    capped = trace(*words, "--most", 13)
    assert "--most is now --max" in capped.errors and capped.output == made(*words, "--max", 13)
    assert len(times(capped.output)) < len(times(made(*words)))


def test_what_is_made_can_be_run(tmp_path: Path, program: Path) -> None:
    paths = []
    for words in MAKERS:
        paths.append(tmp_path / words[0])
        paths[-1].write_text(made(*words, "--seconds", 10))
    traces = {path.name: path.read_text() for path in paths}
    case = {"agent": "reno", "mss": 1448, "queue": 50, "delay_us": 20000, "timeout_us": 1_000_000, "acks": 100}
    cases = [dict(case, name=name, trace=name) for name in traces]
    ran = ccp("campaign", given=json.dumps({"version": 1, "traces": traces, "cases": cases}))
    assert ran.status == 0 and "total cases=4" in ran.output, ran.errors


# ---- what is refused


def test_words_are_refused() -> None:
    wrong: List[List[object]] = [
        ["cut", "x"],
        ["scale", "--rate", "0", "x"],
        ["scale", "--rate", "1", "--time", "2", "x"],
    ]
    wrong += [
        ["lte", "--seconds", "-1"],
        ["lte", "--seconds", "x"],
        ["steps"],
        ["steps", "--rates", "1,,2"],
        ["nothing"],
        [],
    ]
    wrong += [
        ["info"],
        ["info", "--window", "0", "x"],
        ["info", "--windo", "1", "x"],
        ["from-csv", "--separator", "ab", "x"],
    ]
    wrong += [["from-csv", "--count", "mbps", "--kind", "packets", "x"], ["cut", "--from", 5, "--to", 5, TRACES[0]]]
    wrong += [["to-mahimahi-log", "-", "-"], ["measured"]]
    for words in wrong:
        refused(2, "", *words)


def test_sizes_are_refused() -> None:
    refused(1, "no-such: No such file", "info", "no-such")
    refused(1, "nothing is left", "cut", "--from", 200, "--to", 300, TRACES[0])
    refused(1, "at most 3600", "lte", "--seconds", 4000)
    refused(1, "chances", "lte", "--mean", 10**12)
    refused(1, "chances", "scale", "--rate", 10**12, TRACES[0])
    refused(1, "at most 3600000 ms", "scale", "--time", 10**9, TRACES[0])
    refused(1, "no trace's", "info", "-", given="1\n%d\n" % 10**17)


def test_a_closed_pipe_ends_it_silently(tmp_path: Path) -> None:
    long = tmp_path / "long.trace"
    long.write_text("".join("%d\n" % time for time in range(1, 300_000)))
    words = [sys.executable, "-m", "ccp_tools", "trace", "scale", "--rate", "1", str(long)]
    running = subprocess.Popen(
        words, stdout=subprocess.PIPE, stderr=subprocess.PIPE, env={"PYTHONPATH": str(REPOSITORY / "src")}
    )
    assert running.stdout and running.stderr
    running.stdout.read(10)
    running.stdout.close()
    assert running.stderr.read() == b""
    running.stderr.close()
    assert running.wait(60) == 141


def test_folders_and_odd_paths(tmp_path: Path) -> None:
    refused(1, "folder", "info", tmp_path)
    refused(1, "No such file", "info", "")
    with pytest.raises(CcpError, match="no name of a file"):
        read_trace("a\0b")
