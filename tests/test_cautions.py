"""The cautions of ccp_tools.cautions: each regime in which docs/fidelity.md says that figures can't be trusted."""
from __future__ import annotations

import re
from typing import Any, Dict, List

import pytest
from inside import run_inside
from support import REPOSITORY, TRACES

from ccp_tools import cautions
from ccp_tools.spans import Window

STEADY = "".join("%d\n" % number for number in range(1, 101))
GAP = "".join("%d\n" % number for number in [*range(1, 9000, 4), *range(9400, 9500)])
WAVE = "".join("%d\n" % number for number in [*range(1, 1000), *range(1000, 2000, 4)])
LONG = Window(5_000_000, 30_000_000)


def scenario_of(sender: str, trace: str, **members: Any) -> Dict[str, Any]:
    """A scenario of one case."""
    case = {"name": "t-" + sender, "trace": "t", "sender": sender, "agent": sender.rpartition("-")[2], **members}
    if sender.startswith("linux-"):
        case.update(ss=sender, ca=sender)
    return {"traces": {"t": trace}, "cases": [case]}


def row_of(sender: str, **figures: Any) -> Dict[str, Any]:
    """The figures of its case."""
    return {"case": "t-" + sender, "trace": "t", "sender": sender, "end_s": 30.0, **figures}


def headings(found: List[cautions.Caution]) -> List[str]:
    """The headings of cautions."""
    return [one.heading for one in found]


def test_the_first_comparison_breaks_no_rule() -> None:
    for sender in ("linux-reno", "linux-cubic"):
        assert cautions.found(scenario_of(sender, STEADY), [row_of(sender)], {"t": LONG}) == []


def test_gaps_in_the_measured_time() -> None:
    scenario = scenario_of("linux-reno", GAP)
    (one,) = cautions.found(scenario, [row_of("linux-reno")], {"t": LONG})
    assert one.text.startswith("the trace t has 1 gap longer than 200 ms, up to 40") and one.figures is None
    assert one.covers(["t-linux-reno"], "power") and not one.covers(["other"], "power")
    assert one.line().endswith("has none (docs/fidelity.md#what-can-be-trusted)")
    # it lasts beyond the time that is measured, and comes after it
    assert cautions.found(scenario, windows={"t": Window(6_000_000, 9_100_000)})[0].text == one.text
    assert headings(cautions.found(scenario, windows={"t": Window(6_000_000, 8_000_000)})) == []


def test_gaps_of_aggregated_packets_are_none() -> None:
    scenario = scenario_of("linux-reno", GAP, aggregate=4)
    assert cautions.found(scenario, windows={"t": LONG}) == []
    assert cautions.found(scenario, windows={"t": LONG}, recorded={"t": [1, 2]}) == []
    assert len(cautions.found(scenario, windows={"t": LONG}, recorded={"t": [1, 2, 400]})) == 1


@pytest.mark.parametrize(
    "window, is_short",
    [
        (Window(0, 29_999_999), True),
        (Window(4_900_000, 29_000_000), True),
        (Window(5_000_000, 12_000_000), False),
        (Window(0, 30_000_000), False),
        (Window(), False),
    ],
)
def test_short_runs(window: Window, is_short: bool) -> None:
    """The figures of each case say how long one by acknowledgements is."""
    found = cautions.found(scenario_of("linux-reno", STEADY), [row_of("linux-reno")], {"t": window})
    assert headings(found) == ["rules-of-thumb"] * is_short
    short = cautions.found(scenario_of("linux-reno", STEADY), [row_of("linux-reno", end_s=12.0)], {"t": Window()})
    assert headings(short) == ["rules-of-thumb"] and short[0].figures is None
    assert cautions.found(scenario_of("linux-reno", STEADY), [row_of("linux-reno", end_s=12.0)]) == []


def test_losses_by_chance_of_the_built_in_cubic() -> None:
    (one,) = cautions.found(scenario_of("cubic", STEADY, rate=0.01))
    assert one.heading == "losses-by-chance" and one.figures is None and one.text.startswith("cubic: ")
    for sender, rate in (("cubic", 0.0), ("linux-cubic", 0.01), ("reno", 0.01)):
        assert cautions.found(scenario_of(sender, STEADY, rate=rate)) == [], sender


def test_the_built_in_senders() -> None:
    """CUBIC's losses, and where the rate varies the waits of both."""
    found = cautions.found(scenario_of("cubic", STEADY), [row_of("cubic")], {"t": LONG})
    assert [one.figures for one in found] == [{"loss_rate"}]
    found = cautions.found(scenario_of("reno", WAVE), [row_of("reno")], {"t": LONG})
    assert [one.figures for one in found] == [cautions.WAITS] and found[0].text.startswith("wait: reno on t: ")
    assert len(cautions.found(scenario_of("cubic", WAVE), [row_of("cubic")], {"t": LONG})) == 2
    assert cautions.found(scenario_of("reno", STEADY), [row_of("reno")], {"t": LONG}) == []
    # nothing is said of figures where there are none
    assert cautions.found(scenario_of("cubic", WAVE), windows={"t": LONG}) == []


def test_timeouts_slow_start_and_shares() -> None:
    scenario, windows = scenario_of("linux-reno", STEADY), {"t": LONG}
    (one,) = cautions.found(scenario, [row_of("linux-reno", timeouts=2)], windows)
    assert "linux-reno on t: a timeout here comes only" in one.text and one.covers(["t-linux-reno"], "loss_rate")
    (one,) = cautions.found(scenario, [row_of("linux-reno", timeouts=0, slow_start_loss_share=0.9)], windows)
    assert one.text.startswith("lost%: most losses are slow start's, in the first 5 s") and one.figures == {"loss_rate"}
    (one,) = cautions.found(scenario, windows=windows, is_shared=True)
    assert one.heading == "flows-on-one-link" and not one.covers(["t-linux-reno"], "loss_rate")


def test_the_page_has_each_heading() -> None:
    """Of the cautions of a scenario that meets every regime."""
    page = (REPOSITORY / cautions.PAGE).read_text(encoding="utf-8")
    there = {re.sub("[^a-z0-9 ]", "", head.lower()).replace(" ", "-") for head in re.findall(r"(?m)^#+ (.*)$", page)}
    rows = [row_of("cubic", timeouts=1, slow_start_loss_share=1.0)]
    found = cautions.found(scenario_of("cubic", GAP + "9999\n", rate=0.1), rows, {"t": Window()}, is_shared=True)
    found += cautions.found(scenario_of("cubic", WAVE), rows, {"t": Window(0, 2_000_000)})
    assert len({one.text for one in found}) == 8 and set(headings(found)) <= there
    for one in found:
        assert one.text.count(". ") == 0, one.text


def test_a_list_of_names_is_short() -> None:
    assert cautions.listed("abcab") == "a, b, c"
    assert cautions.listed("abcdefgh") == "a, b, c, d, e, f and 2 more"


def test_the_scenario_command_says_them() -> None:
    made = run_inside("scenario", TRACES[2], "--senders", "cubic", "--losses", "rate:0.01", "--acks", "50")
    assert [line.rpartition(" (")[2] for line in made.errors.splitlines()] == [
        "docs/fidelity.md#what-can-be-trusted)",
        "docs/fidelity.md#losses-by-chance)",
    ]
    assert run_inside("scenario", TRACES[2], "--quiet").errors == ""
