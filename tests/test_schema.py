"""examples/scenario.schema.json over rows/: it accepts what `ccp` accepts, and refuses what `ccp` refuses but for what
a schema can't say, each by its name below."""
from __future__ import annotations

import json
import re
from functools import lru_cache
from pathlib import Path
from typing import Any, List, Optional, Sequence, Tuple

import pytest
from rows_of import runs_of
from support import EXAMPLES, ccp, needs

from ccp_tools.explain import json_places, scenarios
from ccp_tools.explain.command import SCENARIOS
from ccp_tools.explain.json_places import Value
from ccp_tools.tables import MODES

pytestmark = needs("import jsonschema")
SCHEMA = EXAMPLES / "scenario.schema.json"
# the kind of what is wrong, and the path to it
Error = Tuple[str, List[Any]]


@lru_cache(maxsize=None)
def validator(name: Optional[str]) -> Any:
    """The validator of a definition of the schema, or of the whole schema."""
    import jsonschema

    schema = json.loads(SCHEMA.read_text(encoding="utf-8"))
    jsonschema.Draft7Validator.check_schema(schema)
    part = {"definitions": schema["definitions"], "$ref": "#/definitions/%s" % name}
    return jsonschema.Draft7Validator(part if name else schema)


def errors_of(name: Optional[str], text: str) -> List[Error]:
    """The errors of a scenario's text, those inside of `anyOf` and the like included."""
    found: List[Error] = []
    leaves = list(validator(name).iter_errors(json.loads(text)))
    while leaves:
        one = leaves.pop()
        leaves += one.context
        found.append((one.validator, list(one.absolute_path)))
    return found


@lru_cache(maxsize=1)
def rows_of_scenarios() -> Sequence[Tuple[str, str, str, Optional[str]]]:
    """The runs of scenarios that are JSON to Python: place, kind of scenario, text, refusal or None."""
    found = []
    for name, mode, data, reason in runs_of(SCENARIOS):
        try:
            text = data.decode("utf-8")
            json.loads(text)
        except ValueError:
            assert reason is not None, "%s: ccp accepts what Python doesn't" % name
            continue
        found.append((name, MODES[mode].kind, text, reason))
    return found


def is_whole_to_a_schema(value: Value) -> bool:
    return value.kind == "number" and value.whole() is None and float(value.is_).is_integer()


def beyond_a_schema(reason: str, text: str) -> Optional[str]:
    """The name of what a schema can't say, for which `ccp` refuses a text; or None."""
    kind, _, path = reason.partition(" ")
    names = {
        "json": "how deep values are nested, and how large a number is as it is written",
        "totals": "the sum of the acknowledgements of all cases",
        "program": "the datapath language",
    }
    if kind in names:
        return names[kind]
    if kind == "trace":
        return "that times rise" if " NotRising " in reason else None
    value = scenarios.Scenario("row", text).found(path)[2]
    return beyond_at(path, value) if kind == "wrong" else None


def beyond_at(path: str, value: Value) -> Optional[str]:
    """The same of a value that is wrong."""
    if is_whole_to_a_schema(value):
        return "how a whole number is written: 5.0, 1e2, -0 and numbers above 2^64"
    is_name = value.kind == "text" and scenarios.NAME.fullmatch(value.is_)
    if re.search(r"[.](trace|ss|ca|steps\[[0-9]+\])$", path) and is_name:
        return "that a name is one of another object's"
    if re.search(r"losses\[[0-9]+\]$", path) and value.whole() is not None:
        return "that numbers rise"
    return None


def steps_of(path: str) -> List[Any]:
    """A path of `ccp` as the steps of a validator."""
    bare = re.sub(r"^(programs|traces)[.].*", r"\1", path, flags=re.DOTALL)
    return [name or int(index) for name, index in re.findall(r"([a-z_]+)|\[([0-9]+)\]", bare)]


def test_it_is_as_ccp_over_rows() -> None:
    for name, kind, text, reason in rows_of_scenarios():
        errors = errors_of(kind, text)
        if reason is None:
            assert not errors, name
        elif not errors:
            assert beyond_a_schema(reason, text), "%s: ccp says %s, the schema accepts it" % (name, reason)
        else:
            what, _, path = reason.partition(" ")
            steps = steps_of(path)[: -1 if what == "missing" else None]
            at = {"program": ["programs"], "trace": ["traces"]}.get(what, steps)
            is_there = any(place[: len(at)] == at for _, place in errors)
            assert is_there or beyond_a_schema(reason, text), "%s: ccp says %s, the schema %s" % (name, reason, errors)


CASE = '{"name":"a","agent":"reno","trace":"t","mss":1448,"queue":10,"delay_us":20000,"timeout_us":1000000,"acks":4%s}'
WHOLE = '{"version":1,"programs":{%s},"traces":{"t":"%s"},"cases":[%s]%s}'
BEYOND = [
    ("json", WHOLE % ("", "10", "", ',"x":1e400')),
    ("json", WHOLE % ("", "10", "", ',"x":' + "[" * 128 + "]" * 128)),
    ("totals", WHOLE % ("", "10", ",".join([CASE % ',"acks":65536'] * 5), "")),
    ("program p Unknown at 1:13", WHOLE % ('"p":"(def) (when x)"', "10", "", "")),
    ("trace t NotRising 2", WHOLE % ("", "10\\n9", "", "")),
    ("wrong cases[0].mss", WHOLE % ("", "10", CASE % ',"mss":5.0', "")),
    ("wrong cases[0].acks", WHOLE % ("", "10", CASE % ',"acks":-0', "")),
    ("wrong cases[0].trace", WHOLE % ("", "10", CASE % ',"trace":"u"', "")),
    ("wrong cases[0].ss", WHOLE % ("", "10", CASE % ',"ss":"p"', "")),
    ("wrong cases[0].losses[1]", WHOLE % ("", "10", CASE % ',"losses":[3,2]', "")),
]


@pytest.mark.parametrize("reason, text", BEYOND, ids=range(len(BEYOND)))
def test_what_it_cannot_say(program: Path, reason: str, text: str) -> None:
    """Each kind of difference, by a scenario that the schema accepts and the program refuses."""
    ran = ccp("live", given=text)
    assert ran.status == 3 and ran.errors == "ccp: input refused: %s\n" % reason
    assert not errors_of("live", text) and beyond_a_schema(reason, text)


def test_it_chooses_the_mode() -> None:
    """The whole schema is the definition of the mode that a scenario looks like one of."""
    for name, _, text, _ in rows_of_scenarios():
        mode = scenarios.Scenario("row", text).mode() if is_json(text) else "campaign"
        assert bool(errors_of(None, text)) == bool(errors_of(mode, text)), "%s, %s" % (name, mode)


def is_json(text: str) -> bool:
    try:
        json_places.read(text)
        return True
    except json_places.NotJson:
        return False


@pytest.mark.parametrize("name", ["campaign", "live", "shared", "convergence", "rollout"])
def test_it_takes_the_examples(name: str) -> None:
    assert not errors_of(None, (EXAMPLES / (name + ".json")).read_text(encoding="utf-8"))


def test_a_driven_case_has_no_agent() -> None:
    """It is a case of `live` without the members of an agent, which are ignored."""
    text = (EXAMPLES / "driven.json").read_text(encoding="utf-8")
    assert not errors_of("drive", text) and errors_of("live", text) == [("required", ["cases", 0])]
    for name, bad in (("agent", 7), ("ss", []), ("start_us", -1), ("mark", 0), ("lag", "1")):
        given = text.replace('"name"', '%s,"name"' % json.dumps({name: bad})[1:-1])
        assert bool(errors_of("drive", given)) == (name in ("mark", "lag")), name
    rules = scenarios.Rules()
    case, driven = rules.members("case"), rules.members("drivenCase")
    assert {name: case[name] for name in case if name not in ("agent", "ss", "ca")} == driven
    assert all(rules.needs("case", name) == rules.needs("drivenCase", name) for name in driven)


def test_each_member_has_a_description() -> None:
    rules = scenarios.Rules()
    for of in ("whole", "case", "sharedCase", "rolloutCase", "drivenCase", "bottleneck"):
        for name in rules.members(of):
            assert len(rules.allowed(of, name)) > 20, "%s of %s" % (name, of)
