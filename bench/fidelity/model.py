"""The cases in `ccp`, with the built-in senders and those like Linux's."""

from __future__ import annotations

from pathlib import Path
from typing import Any, Dict, Iterator, Sequence

import numpy as np
import pandas as pd
from ccp_tools import program, scenario, texts
from ccp_tools.compare.cases import parts_of
from ccp_tools.frames import acks_in, timeline_of

from .cases import HOST_US, SEGMENT_BYTES, TIMEOUT_US, Case, Outcome

# the senders of each algorithm
SENDERS = {"reno": ("reno", "linux-reno"), "cubic": ("cubic", "linux-cubic")}


def identity(path: str | Path | None = None) -> str:
    """Which program it is: its version, and whether it is the proved one."""
    known = program.identity(program.find_program(path))
    return "ccp %s%s" % (known.version, "" if known.is_proved else ", unproved")


def scenario_of(cases: Sequence[Case]) -> Dict[str, Any]:
    """The scenario of the cases, one after another with each sender of their algorithm. The cases are of one length."""
    made: Dict[str, Any] = {}
    for number, case in enumerate(cases):
        words = ["--senders", ",".join(SENDERS[case.algorithm]), "--queue", str(case.queue)]
        words += ["--delay-ms", str(case.delay_ms), "--acks", str(case.segments), "--mss", str(SEGMENT_BYTES)]
        words += ["--timeout-ms", str(TIMEOUT_US // 1000)]
        if case.losses:
            words += ["--losses", "+".join(map(str, case.losses))]
        one = scenario.make([*words, "--", str(case.trace_path)])
        for member in one["cases"]:
            # the name of a case may be longer than a scenario takes
            member["name"] = "%d-%s" % (number, member["sender"])
            member["delay_us"] += HOST_US
        for name, value in one.items():
            if isinstance(value, dict):
                made.setdefault(name, {}).update(value)
        made["cases"] = made.get("cases", []) + one["cases"]
        made["version"] = one["version"]
    return made


def run(cases: Sequence[Case], path: str | Path | None = None) -> Iterator[Outcome]:
    """Runs all cases with each of their senders. Time is virtual, so equal cases give equal figures."""
    pairs = [(case, sender) for case in cases for sender in SENDERS[case.algorithm]]
    for first, part in parts_of(scenario_of(cases)):
        timeline = timeline_of(texts.read_flows(program.run("timeline", part, program=path).output))
        reports = dict(list(timeline.reports.groupby("flow", sort=False)))
        for flow in acks_in(program.run("acks", part, program=path).output):
            case, sender = pairs[first + flow.number]
            yield Outcome(case, "ccp", sender, flow.frame, windows_of(reports.get(flow.number)))


def windows_of(reports: pd.DataFrame | None) -> pd.DataFrame:
    """The window over time: that of each report, from it on."""
    if reports is None:
        return pd.DataFrame({"seconds": [], "segments": []})
    values = reports["cwnd"].to_numpy().astype(np.float64) / SEGMENT_BYTES
    return pd.DataFrame({"seconds": reports["now"].to_numpy().astype(np.float64) / 1e6, "segments": values})
