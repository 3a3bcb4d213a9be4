"""Of a fault that was found: where it is, an input of `fold` that runs into it, and what `ccp explain` shows of it."""
from __future__ import annotations

import re
from pathlib import Path
from typing import Dict, Tuple

from .. import probe, program, texts
from ..explain.command import Given, lines_of
from ..scenario_files import Scenario
from ..tables import BUILT_INS


def first_fault(scenario: Scenario, path: Path) -> Tuple[texts.Flow, texts.Fault] | None:
    """The flow of a scenario of one case and its first fault; None where it has none."""
    flow = texts.read_flows(program.run("timeline", scenario, program=path).output)[0]
    return (flow, flow.faults[0]) if flow.faults else None


def cut_at_fault(scenario: Scenario, path: Path) -> Scenario:
    """A scenario of one case with the acknowledgements up to the first fault, and none after it."""
    found = first_fault(scenario, path)
    if found is None:
        return scenario
    return {**scenario, "cases": [{**scenario["cases"][0], "acks": found[1].ack + 1}]}


def name_of(scenario: Scenario, number: int) -> str:
    """The name of a program by its number: the built-in ones come first, and then the scenario's in order."""
    return [*BUILT_INS, *sorted(scenario.get("programs", {}), key=str.encode)][number]


def words(scenario: Scenario, path: Path) -> str:
    """Where the fault of a scenario of one case is."""
    found = first_fault(scenario, path)
    if found is None:
        return "no fault"
    flow, fault = found
    name = name_of(scenario, flow.epochs[fault.epoch].program or 0)
    return "%s at %s of the program %s, at acknowledgement %d" % (fault.kind, fault.place, name, fault.ack)


def fold_input(scenario: Scenario, path: Path) -> str | None:
    """An input of `fold` that runs into the first fault of a scenario of one case; None where `fold` runs into none.

    `fold` has no agent, so the program begins with what the agent gave it: the window, by a block of its own before
    the others, and the control variable `mss`. It gets the acknowledgements since it began."""
    found = first_fault(scenario, path)
    if found is None:
        return None
    flow, fault = found
    begun = flow.epochs[fault.epoch]
    name = name_of(scenario, begun.program or 0)
    text = scenario["programs"][name] if name in scenario.get("programs", {}) else probe.built_in(name)
    lines = program.run("acks", scenario, program=path).output.split("\n")[1:]
    acks = "\n".join(lines[begun.at : fault.ack + 1])
    made = "%s\n---\n%s\n" % (with_window(text, scenario["cases"][0]["mss"], begun.cwnd).rstrip("\n"), acks)
    ran = program.run("fold", made, program=path, check=False)
    return made if re.search(r"^fault ", ran.output, re.MULTILINE) else None


def with_window(text: str, mss: int, cwnd: int) -> str:
    """A program that begins with a window and with the bytes of a segment, on the lines that it had."""
    begins = "begins"
    while begins in text:
        begins += "_"
    blank = re.sub(r"#[^\n]*", lambda found: " " * len(found[0]), text)
    end = probe.end_of_form(blank)
    block = "(when %s (:= Cwnd %d) (:= %s false) (fallthrough))" % (begins, cwnd, begins)
    form = re.sub(r"\(mss [0-9]+\)", "(mss %d)" % mss, text[: end - 1], count=1)
    return "%s (%s true)) %s%s" % (form, begins, block, text[end:])


def files_of(scenario: Scenario, path: Path) -> Dict[str, str]:
    """The files of the fault of a scenario of one case, by their names."""
    made = fold_input(scenario, path)
    if made is None:
        return {}
    given = Given("fault.ccp", made.encode("utf-8", "surrogateescape"))
    return {"fault.ccp": made, "fault.txt": "\n".join(lines_of(path, given, "fold", True)[1]) + "\n"}
