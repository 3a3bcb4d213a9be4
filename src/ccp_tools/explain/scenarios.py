"""Scenarios: what the schema allows of their members, and the place in a scenario that a refusal's path names."""
from __future__ import annotations

import json
import re
from functools import lru_cache
from pathlib import Path
from typing import Any, Dict, List, Optional, Tuple

from ..tables import MODES
from . import json_places
from .findings import Text
from .json_places import Value

SCHEMA = Path(__file__).resolve().parent / "scenario.schema.json"
# the rules of a case by the kind of scenario, where they aren't those of `case`
CASES = {"shared": "sharedCase", "rollout": "rolloutCase", "drive": "drivenCase"}
NAME = re.compile("[A-Za-z0-9_.-]{1,32}")
STEP = re.compile(r"([a-z_]+)(?:\[([0-9]+)\])?(?:\.(.*))?", re.DOTALL)
Pair = Tuple[Value, Value]


class Rules:
    """What the schema says of members: what is allowed, by object and name. The objects are `whole`, `case`,
    `sharedCase`, `rolloutCase`, `drivenCase` and `bottleneck`."""

    def __init__(self) -> None:
        self.definitions = json.loads(SCHEMA.read_text(encoding="utf-8"))["definitions"]

    def members(self, of: str) -> Dict[str, Any]:
        """The members of an object, with the rule of each; those of an object that it extends come first."""
        found = {name: rule for base in self._bases(of) for name, rule in self.members(base).items()}
        found.update((name, self._resolved(rule)) for name, rule in self.definitions[of]["properties"].items())
        return found

    def needs(self, of: str, name: str) -> bool:
        """Whether an object can't be without a member."""
        extended = any(self.needs(base, name) for base in self._bases(of))
        return extended or name in self.definitions[of].get("required", ())

    def _bases(self, of: str) -> List[str]:
        """The objects that an object extends."""
        return [base["$ref"].rsplit("/", 1)[1] for base in self.definitions[of].get("allOf", ())]

    def _resolved(self, rule: Dict[str, Any]) -> Dict[str, Any]:
        return self.definitions[rule["$ref"].rsplit("/", 1)[1]] if "$ref" in rule else rule

    def allowed(self, of: str, name: str) -> str:
        """A sentence on a member's value."""
        rule = self.members(of).get(name)
        if rule is None:
            return ""
        sentence = rule["description"].rstrip(".")
        if rule.get("type") == "integer" and "maximum" in rule:
            sentence += ": a whole number from %d to %d" % (rule["minimum"], rule["maximum"])
        elif "enum" in rule:
            sentence += ": " + " or ".join('"%s"' % value for value in rule["enum"])
        elif rule.get("type") == "array" and "maxItems" in rule:
            sentence += ": a list of %d to %d names" % (rule["minItems"], rule["maxItems"])
        return "`%s`: %s." % (name, sentence)


@lru_cache(maxsize=1)
def the_rules() -> Rules:
    """The rules, read once."""
    return Rules()


class Scenario:
    """A scenario's text with its value `whole`, which is None where the text isn't JSON; `broken` then says why."""

    def __init__(self, name: str, text: str) -> None:
        self.text = Text(name, text)
        self.rules = the_rules()
        self.whole: Optional[Value] = None
        self.broken: Optional[json_places.NotJson] = None
        try:
            self.whole = json_places.read(text)
        except json_places.NotJson as why:
            self.broken = why
        except RecursionError:
            self.broken = json_places.NotJson(0, "it is nested too deep")

    def cases(self) -> List[Value]:
        """The cases, whatever they are."""
        found = self.whole.member("cases") if self.whole else None
        return found.is_ if found is not None and found.kind == "array" else []

    def table(self, name: str) -> Dict[str, Pair]:
        """The keys and values of `programs` or `traces`: of equal keys the last."""
        found = self.whole.member(name) if self.whole else None
        if found is None or found.kind != "object":
            return {}
        return {key.is_: (key, value) for key, value in found.is_}

    def mode(self) -> str:
        """The mode that it looks like a scenario of."""
        if any(case.member(name) for case in self.cases() for name in ("steps", "cwnd")):
            return "rollout"
        return "shared" if self.whole is not None and self.whole.member("shared") else "campaign"

    def case_kind(self, mode: str) -> str:
        """The name of the rules of a case in a mode."""
        return CASES.get(reads(mode), "case")

    def found(self, path: str) -> Tuple[Value, str, Value]:
        """The object that a path ends in, the name of its last step, and the value there. Where the last step's member
        is missing, or the path is empty, that is the object itself."""
        assert self.whole is not None
        within, name, value = self.whole, "", self.whole
        rest: Optional[str] = path or None
        while rest is not None:
            matched = STEP.fullmatch(rest)
            assert matched, path
            name, index, rest = matched.group(1), matched.group(2), matched.group(3)
            within = value
            value = value.member(name) or value
            if index is not None:
                value = value.is_[int(index)]
            if rest is not None and name in ("programs", "traces"):
                keys = [key for key in sorted(self.table(name), key=encoded) if path_name(key) == rest]
                return value, keys[0], self.table(name)[keys[0]][1]
        return within, name, value


def encoded(name: str) -> bytes:
    """A name's bytes, by which members are ordered."""
    return name.encode("utf-8", "surrogatepass")


def reads(mode: str) -> str:
    """The kind of scenario that a mode reads; `audit` reads one of `live`."""
    return MODES[mode].kind


def path_name(key: str) -> str:
    """A name as it is in a path."""
    return "".join(chr(byte) if 0x20 <= byte <= 0x7E else "?" for byte in key.encode("utf-8", "replace"))
