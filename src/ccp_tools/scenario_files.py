"""Reads and writes scenarios, which are JSON objects (docs/scenarios.md)."""
from __future__ import annotations

import json
from pathlib import Path
from typing import Any, Dict, List, Mapping, Tuple, Union

from .errors import CcpError, cut
from .files import PathLike, name_of, read_bytes, read_text, write_text

Scenario = Dict[str, Any]
# a scenario as a caller gives it: its members, its text, or the path of its file
GivenScenario = Union[Mapping[str, Any], str, bytes, Path]
# members of a case that each has, and whole numbers that it may have
TEXTS, NEEDED = ("name", "trace"), ("mss", "queue", "delay_us", "timeout_us", "acks")
NUMBERS = ("lag", "slots", "mark", "start_us")


def scenario_of(text: str, place: str = "scenario") -> Scenario:
    """The value of a scenario's text, which has to be a JSON object; `place` names it where it is refused."""
    try:
        made = json.loads(text)
    except json.JSONDecodeError as error:
        is_meant = text.lstrip("\ufeff \t\r\n").startswith(("{", "["))
        reason = error.msg if is_meant else "a scenario is expected, which begins with {"
        raise CcpError("%s:%d:%d: no JSON: %s" % (place, error.lineno, error.colno, reason)) from None
    except (RecursionError, ValueError) as error:  # ValueError: an integer of more digits than Python reads
        what = "it is nested too deeply" if isinstance(error, RecursionError) else "a number has too many digits"
        raise CcpError("%s: no JSON: %s" % (place, what)) from None
    if not isinstance(made, dict):
        raise CcpError("%s: a scenario is a JSON object" % place)
    return made


def given_scenario(given: GivenScenario) -> Union[Mapping[str, Any], bytes]:
    """The members or the bytes of a scenario that a caller gives: a text begins with {, and any other str is the path
    of a file, as a Path is. Bytes stay as they are. Errors: CcpError where the file can't be read."""
    if isinstance(given, (bytes, Mapping)):
        return given
    if isinstance(given, str) and given.lstrip("\ufeff \t\r\n").startswith("{"):
        return given.encode("utf-8", "surrogateescape")
    if isinstance(given, (str, Path)):
        return read_bytes(given)
    raise CcpError("a scenario is a dict, a text or the path of a file, not %s" % type(given).__name__)


def read_scenario(path: PathLike) -> Scenario:
    """The scenario in a file, as a dict; `-` is standard input."""
    return scenario_of(read_text(path), name_of(path))


def read_run_scenario(path: PathLike) -> Scenario:
    """The same of a scenario that `ccp` has run: a member that figures and plots read, and `ccp` would have refused, is
    a CcpError."""
    scenario = read_scenario(path)
    wrong = wrong_member(scenario)
    if wrong:
        raise CcpError("%s: no scenario of ccp: %s is missing or of another kind" % (name_of(path), wrong))
    for place, one in [("cases[%d]" % at, case) for at, case in enumerate(scenario["cases"])] + shared_of(scenario):
        if one["trace"] not in scenario["traces"]:
            what = "%s.trace names %s, and the scenario has no such trace" % (place, cut(one["trace"]))
            raise CcpError("%s: no scenario of ccp: %s" % (name_of(path), what))
    return scenario


def shared_of(scenario: Mapping[str, Any]) -> List[Tuple[str, Mapping[str, Any]]]:
    """The member `shared` with its name, where there is one."""
    return [("shared", scenario["shared"])] if scenario.get("shared") else []


def wrong_member(scenario: Mapping[str, Any]) -> str:
    """The path of the first member that is missing or of another kind, or an empty text."""
    traces, cases = scenario.get("traces"), scenario.get("cases")
    if not isinstance(traces, dict) or not all(isinstance(text, str) for text in traces.values()):
        return "traces"
    if not isinstance(cases, list):
        return "cases"
    for at, case in enumerate(cases):
        if not isinstance(case, dict):
            return "cases[%d]" % at
        texts = [*TEXTS, *({"sender", "agent", "ss", "ca"} & set(case))]
        numbers = [*NEEDED, *(name for name in NUMBERS if name in case)]
        wrong = [name for name in texts if not isinstance(case.get(name), str)]
        wrong += [name for name in numbers if not is_number(case.get(name))]
        losses = case.get("losses", [])
        wrong += ["losses"] if not isinstance(losses, list) or not all(map(is_number, losses)) else []
        if wrong:
            return "cases[%d].%s" % (at, wrong[0])
    return wrong_shared(scenario.get("shared"))


def wrong_shared(shared: Any) -> str:
    """The same of the member `shared`, which a scenario may lack."""
    if not shared:
        return ""
    if not isinstance(shared, dict):
        return "shared"
    numbers = [name for name in ("rounds", "quantum_us") if not is_number(shared.get(name))]
    wrong = numbers if isinstance(shared.get("trace"), str) else ["trace"]
    return "shared.%s" % wrong[0] if wrong else ""


def is_number(value: Any) -> bool:
    """Whether a value is a whole number that `ccp` reads."""
    return isinstance(value, int) and not isinstance(value, bool) and 0 <= value < 2**64


def scenario_text(scenario: Mapping[str, Any]) -> str:
    """The JSON text of a scenario, with a line for each case."""
    cases = ",\n  ".join(json.dumps(case) for case in scenario["cases"])
    rest = {name: value for name, value in scenario.items() if name != "cases"}
    head = ",\n ".join("%s: %s" % (json.dumps(name), json.dumps(value)) for name, value in rest.items())
    return '{%s,\n "cases": [\n  %s\n ]}\n' % (head, cases)


def write_scenario(scenario: Mapping[str, Any], path: str | Path) -> None:
    """Writes a scenario to a file."""
    write_text(path, scenario_text(scenario))
