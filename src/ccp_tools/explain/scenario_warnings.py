"""What is likely meant otherwise in a scenario, though it is accepted, or refused for something else."""
from __future__ import annotations

from dataclasses import replace
from typing import Dict, Iterator, List, Optional, Sequence, Set, Tuple

from . import program_warnings
from .findings import Finding, cut, nearest
from .json_places import Value
from .scenario_refusals import NOTES, place_within
from .scenarios import CASES, Scenario, reads

# times in microseconds that are written in other units by mistake, each with an example
TIMES = {"delay_us": "20 ms are 20000", "timeout_us": "1 s is 1000000", "start_us": "1 s is 1000000"}
LEAST_TIME = 1000


def warnings_of(scenario: Scenario, mode: str, is_accepted: bool = True) -> List[Finding]:
    """The warnings of a scenario in a mode; those of its programs only where it is accepted."""
    if scenario.whole is None or scenario.whole.kind != "object":
        return []
    found: List[Finding] = []
    for of, value in objects(scenario, mode):
        found += twice(value)
        found += unknown(scenario, mode, of, value) if of else []
    found = [*once(found), *unused(scenario, mode), *of_cases(scenario, mode)]
    return found + list(of_programs(scenario, mode)) if is_accepted else found


def once(found: Sequence[Finding]) -> List[Finding]:
    """Warnings that many cases have, each at its first place, with the number of the others."""
    texts = [(one.what, *one.hints) for one in found]
    made = []
    for text in dict.fromkeys(texts):
        one, others = found[texts.index(text)], texts.count(text) - 1
        more = ["It is so at %d more place%s." % (others, "" if others == 1 else "s")] if others else []
        made.append(replace(one, hints=[*one.hints, *more]))
    return made


def objects(scenario: Scenario, mode: str) -> List[Tuple[Optional[str], Value]]:
    """The objects of a scenario, each with the name of its rules, or None."""
    whole, kind = scenario.whole, scenario.case_kind(mode)
    assert whole is not None
    found: List[Tuple[Optional[str], Optional[Value]]] = [("whole", whole)]
    found += [(None, whole.member("programs")), (None, whole.member("traces"))]
    found += [(kind, case) for case in scenario.cases()]
    found += [("bottleneck", whole.member("shared"))] if reads(mode) == "shared" else []
    return [(of, value) for of, value in found if value is not None and value.kind == "object"]


def twice(value: Value) -> Iterator[Finding]:
    """Members of one name: the last counts."""
    names = [key.is_ for key, _ in value.is_]
    if len(set(names)) == len(names):
        return
    for name in dict.fromkeys(names):
        if names.count(name) > 1:
            first = value.members(name)[0][0]
            what = "`%s` is here %d times; only the last one counts" % (cut(name), names.count(name))
            yield Finding("warning", first.start, first.end, what)


def unknown(scenario: Scenario, mode: str, of: str, value: Value) -> Iterator[Finding]:
    """Members that `ccp` ignores."""
    known = scenario.rules.members(of)
    others = others_of(scenario, of)
    for name in value.names():
        key = value.members(name)[-1][0]
        if name in known or (of == "whole" and name == "shared" and reads(mode) == "shared"):
            continue
        # an agent inside beside the one outside: `campaign` runs the same cases
        if name == "agent" and reads(mode) == "drive":
            continue
        if name in others:
            yield Finding("warning", key.start, key.end, "`%s` is ignored by `%s`" % (name, mode))
            continue
        near = nearest(name, [other for other in known if other not in value.names()] or known)
        if near and not is_note(name, value.members(name)[-1][1]):
            yield Finding("warning", key.start, key.end, "`%s` is ignored" % cut(name), ["Did you mean `%s`?" % near])
        elif not NOTES.fullmatch(name):
            yield Finding("warning", key.start, key.end, "`%s` is ignored: ccp knows no such member" % cut(name))


def others_of(scenario: Scenario, of: str) -> Sequence[str]:
    """The members that an object has in another mode."""
    if of == "whole":
        return ["shared"]
    kinds = ("case", *CASES.values())
    return [name for kind in kinds for name in scenario.rules.members(kind)] if of in kinds else []


def is_note(name: str, value: Value) -> bool:
    """Whether a member is one of `ccp scenario`, whatever it looks like. Its `loss` is a text; another one may well be
    meant as `losses`."""
    return NOTES.fullmatch(name) is not None and (name != "loss" or value.kind == "text")


def unused(scenario: Scenario, mode: str) -> Iterator[Finding]:
    """Programs and traces that no case names. A case that names one that isn't there may mean any of them."""
    assert scenario.whole is not None
    shared = scenario.whole.member("shared")
    users = [*scenario.cases(), *([shared] if shared else [])]
    members = {"trace": ["trace"], "program": ["steps"] if reads(mode) == "rollout" else ["ss", "ca"]}
    if reads(mode) == "drive":
        # an agent outside chooses among all programs
        del members["program"]
    for of, names in members.items():
        table, used = scenario.table(of + "s"), texts_of(users, names)
        if not used <= set(table):
            continue
        for name, (key, _) in table.items():
            if name not in used:
                yield Finding("warning", key.start, key.end, "no case uses the %s `%s`" % (of, cut(name)))


def texts_of(users: Sequence[Value], members: Sequence[str]) -> Set[str]:
    """The texts that some members of some objects are, or that are items of theirs."""
    values = [case.member(name) for case in users for name in members]
    lists = [item for value in values if value is not None and value.kind == "array" for item in value.is_]
    return {value.is_ for value in values + lists if value is not None and value.kind == "text"}


def of_cases(scenario: Scenario, mode: str) -> Iterator[Finding]:
    """Cases of one name, times that look like milliseconds or seconds, and no cases."""
    seen: Dict[str, int] = {}
    for index, case in enumerate(scenario.cases()):
        name = case.member("name")
        if name is not None and name.kind == "text":
            if name.is_ in seen:
                what = "the cases %d and %d have one name" % (seen[name.is_], index)
                yield Finding("warning", name.start, name.end, what)
            seen.setdefault(name.is_, index)
    yield from of_times(scenario, mode)
    assert scenario.whole is not None
    cases = scenario.whole.member("cases")
    if cases is not None and not scenario.cases() and cases.kind == "array":
        yield Finding("warning", cases.start, cases.end, "there are no cases")


def of_times(scenario: Scenario, mode: str) -> Iterator[Finding]:
    """Times below a millisecond that the mode reads, once for each member and value; 0 is meant."""
    known = scenario.rules.members(scenario.case_kind(mode))
    for member in [name for name in TIMES if name in known]:
        seen: Set[int] = set()
        for case in scenario.cases():
            value = case.member(member)
            number = value.whole() if value is not None else None
            if value is not None and number is not None and 0 < number < LEAST_TIME and number not in seen:
                seen.add(number)
                what = "`%s` is %d microsecond%s, less than a millisecond" % (member, number, "s" * (number > 1))
                yield Finding("warning", value.start, value.end, what, ["It counts microseconds: %s." % TIMES[member]])


def of_programs(scenario: Scenario, mode: str) -> Iterator[Finding]:
    """The warnings of the programs that some case uses, and of all that an agent outside may use."""
    programs = scenario.table("programs")
    is_outside = reads(mode) == "drive"
    used = set(programs) if is_outside else texts_of(scenario.cases(), ["ss", "ca"])
    for name, (_, value) in programs.items():
        if name not in used or value.kind != "text" or reads(mode) == "rollout":
            continue
        data = value.is_.encode("utf-8", "surrogatepass")
        for warning in program_warnings.warnings_of(value.is_, is_outside):
            what = "program `%s`: %s" % (cut(name), warning.text)
            found = Finding("warning", warning.start, warning.end, what, list(warning.hints))
            place_within(found, value, data)
            yield found
