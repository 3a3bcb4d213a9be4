"""Reads a scenario as `live` and the modes of `drive` read one: the cases that are run, or the first thing that is
wrong, as docs/scenarios.md orders them.

Whether the text of a program is accepted isn't in the model: `refusal_of` is asked for the refusal of a text, and
`accepted` refuses none."""
from __future__ import annotations

import re
from dataclasses import dataclass
from typing import Any, Callable, Dict, List, Optional, Sequence, Tuple

from ..explain.json_places import NotJson, Value, read
from ..tables import AGENTS, LIMITS

# the refusal of a program's text, as `Unknown at 2:7`, or None
Check = Callable[[str], Optional[str]]
NAME = re.compile("[A-Za-z0-9_.-]{1,32}")
PACKETS = 2**32

# the members of a case that are whole numbers, each with its range; those in DEFAULTS may be left out
NUMBERS: Dict[str, Tuple[int, int]] = {
    "mss": (1, LIMITS["segment_bytes"]),
    "queue": (1, LIMITS["queue"]),
    "delay_us": (0, LIMITS["delay_us"]),
    "timeout_us": (1, LIMITS["timeout_us"]),
    "acks": (0, LIMITS["acks"]),
    "slots": (1, LIMITS["slots"]),
    "lag": (0, LIMITS["lag"]),
    "mark": (1, LIMITS["mark"]),
}
DEFAULTS: Dict[str, Any] = {"slots": 4, "lag": 0, "losses": [], "mark": None, "ss": None, "ca": None}
OF_DRIVE = ("name", "trace", "mss", "queue", "delay_us", "timeout_us", "acks", "slots", "lag", "losses", "mark")
# the members of a case by the mode that reads it, in the order in which they are read
MEMBERS: Dict[str, Sequence[str]] = {
    "live": ("name", "agent", *OF_DRIVE[1:], "ss", "ca"),
    "drive": OF_DRIVE,
}


class Refused(Exception):
    """What is wrong with a scenario, as the line of the program has it."""


def accepted(_text: str) -> Optional[str]:
    """Refuses no program."""
    return None


@dataclass
class Tables:
    """The names that a case may name."""

    traces: Dict[str, str]
    programs: Dict[str, str]


def scene_of(data: bytes, mode: str = "drive", refusal_of: Check = accepted) -> Dict[str, Any]:
    """The scenario of some bytes with the members that a mode reads. It raises Refused."""
    try:
        whole = read(data.decode("utf-8", "surrogateescape"))
    except (NotJson, RecursionError):
        raise Refused("json") from None
    if whole.kind != "object":
        raise Refused("wrong ")
    if number_of(needed(whole, "version", "version"), "version") != 1:
        raise Refused("range version")
    programs = programs_of(whole.member("programs"), refusal_of)
    traces = texts_of(needed(whole, "traces", "traces"), "traces", trace_refusal)
    cases = needed(whole, "cases", "cases")
    if cases.kind != "array":
        raise Refused("wrong cases")
    if len(cases.is_) > LIMITS["flows"]:
        raise Refused("range cases")
    tables = Tables(traces, programs)
    made = [case_of(value, "cases[%d]" % at, MEMBERS[mode], tables) for at, value in enumerate(cases.is_)]
    if sum(case["acks"] for case in made) > LIMITS["acks_in_all"]:
        raise Refused("totals")
    return {"version": 1, "programs": programs, "traces": traces, "cases": made}


def needed(of: Value, name: str, path: str) -> Value:
    """The value of a member that has to be there."""
    value = of.member(name)
    if value is None:
        raise Refused("missing " + path)
    return value


def number_of(value: Value, path: str) -> int:
    """The whole number that a value is."""
    number = value.whole()
    if number is None:
        raise Refused("wrong " + path)
    return number


def name_of(value: Value, path: str) -> str:
    """The name that a value is."""
    if value.kind != "text" or not NAME.fullmatch(value.is_):
        raise Refused("wrong " + path)
    return str(value.is_)


# ---- programs and traces


def programs_of(value: Optional[Value], refusal_of: Check) -> Dict[str, str]:
    """The texts of the member `programs`."""
    if value is None:
        return {}
    if value.kind == "object" and len(value.names()) > LIMITS["named_programs"]:
        raise Refused("range programs")
    return texts_of(value, "programs", refusal_of)


def texts_of(value: Value, path: str, refusal_of: Check) -> Dict[str, str]:
    """The texts of `programs` or `traces` by their names, in byte order of these."""
    if value.kind != "object":
        raise Refused("wrong " + path)
    made = {}
    for name in sorted(value.names(), key=str.encode):
        text = value.member(name)
        if not NAME.fullmatch(name) or text is None or text.kind != "text":
            raise Refused("wrong %s.%s" % (path, shown(name)))
        refusal = refusal_of(text.is_)
        if refusal is not None:
            raise Refused("%s %s %s" % (path[:-1], name, refusal))
        made[name] = str(text.is_)
    return made


def shown(name: str) -> str:
    """A name as a path has it."""
    return "".join(chr(byte) if 0x20 <= byte <= 0x7E else "?" for byte in name.encode())


def trace_refusal(text: str) -> Optional[str]:
    """What is wrong with a trace's text, or None."""
    times: List[Tuple[int, int]] = []
    for number, line in enumerate(text.split("\n"), 1):
        bare = (line[:-1] if line.endswith("\r") else line).strip(" \t")
        if bare and not (re.fullmatch("[0-9]+", bare) and int(bare) <= LIMITS["trace_ms"]):
            return "BadLine %d" % number
        if bare:
            times.append((number, int(bare)))
    if not times:
        return "EmptyTrace"
    for (_, before), (number, time) in zip(times, times[1:]):
        if time < before:
            return "NotRising %d" % number
    return None if times[-1][1] else "ZeroPeriod"


# ---- cases


def case_of(value: Value, path: str, members: Sequence[str], tables: Tables) -> Dict[str, Any]:
    """A case with these members alone; one that is left out has its default, and none where that is None."""
    if value.kind != "object":
        raise Refused("wrong " + path)
    made: Dict[str, Any] = {}
    for name in members:
        given, within = value.member(name), "%s.%s" % (path, name)
        if given is None and name not in DEFAULTS:
            raise Refused("missing " + within)
        found = DEFAULTS[name] if given is None else member_of(name, given, within, tables)
        if found is not None:
            made[name] = found
    return made


def member_of(name: str, value: Value, path: str, tables: Tables) -> Any:
    """The value of a case's member."""
    if name == "losses":
        return losses_of(value, path)
    if name in NUMBERS:
        least, most = NUMBERS[name]
        if not least <= (number := number_of(value, path)) <= most:
            raise Refused("range " + path)
        return number
    found = name_of(value, path)
    known: Dict[str, Sequence[str]] = {
        "agent": list(AGENTS),
        "trace": list(tables.traces),
        "ss": list(tables.programs),
        "ca": list(tables.programs),
    }
    if found not in known.get(name, [found]):
        raise Refused("wrong " + path)
    return found


def losses_of(value: Value, path: str) -> List[int]:
    """The numbers of lost packets, which rise."""
    if value.kind != "array":
        raise Refused("wrong " + path)
    made: List[int] = []
    for at, one in enumerate(value.is_):
        within = "%s[%d]" % (path, at)
        number = number_of(one, within)
        if not 0 <= number < PACKETS:
            raise Refused("range " + within)
        if made and number <= made[-1]:
            raise Refused("wrong " + within)
        made.append(number)
    return made
