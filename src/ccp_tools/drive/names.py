"""The names of a scenario: its cases, its programs by their numbers, and what each of these declares."""
from __future__ import annotations

import json
import operator
from dataclasses import dataclass
from typing import Any, Dict, List, Mapping, Tuple

from ..errors import cut
from ..reference.flow import Programs
from ..reference.syntax import Program
from ..tables import BUILT_INS
from .errors import BadAnswer


@dataclass(frozen=True)
class Declared:
    """What a program declares: `fields` and `controls` are the names in order of declaration. `text` is its source, and
    `page_name` its name as pages and messages have it: a built-in program is `reno_ss` in texts, and `reno.ss` there.
    """

    number: int
    name: str
    text: str
    fields: Tuple[str, ...]
    controls: Tuple[str, ...]

    @property
    def page_name(self) -> str:
        return self.name.replace("_", ".", 1) if self.number < len(BUILT_INS) else self.name

    def control(self, name: str) -> int:
        """The number of a control variable. A name that the program doesn't declare is a BadAnswer."""
        try:
            return self.controls.index(name)
        except ValueError:
            has = "it has " + ", ".join(self.controls) if self.controls else "it has none"
            text = "the program %s has no control variable %s: %s" % (self.page_name, cut(name), has)
            raise BadAnswer(text) from None


class Names:
    """The names of a scenario. Of what is no scenario there are none: the program refuses it, and says why."""

    def __init__(self, scenario: Mapping[str, Any]) -> None:
        cases = scenario.get("cases")
        self.cases: List[Any] = cases if isinstance(cases, list) else []
        self.programs = programs_of(scenario.get("programs", {}))
        # a program of the scenario goes before a built-in one of its name; `reno.ss` is `reno_ss` as pages write it
        self.numbers: Dict[str, int] = {one.page_name: one.number for one in self.programs[: len(BUILT_INS)]}
        self.numbers.update({one.name: one.number for one in self.programs})

    @classmethod
    def of(cls, text: bytes) -> Names:
        """The names of a scenario's text."""
        try:
            made = json.loads(text)
        except (ValueError, RecursionError):
            made = None
        return cls(made if isinstance(made, dict) else {})

    def case(self, flow: int) -> str:
        """The name of a flow's case."""
        case = self.cases[flow] if flow < len(self.cases) else None
        return str(case.get("name", "")) if isinstance(case, dict) else ""

    def number(self, program: str | int) -> int:
        """The number of a program by its name; a number stays as it is. What is neither is a BadAnswer."""
        if not isinstance(program, str):
            try:
                return operator.index(program)
            except TypeError:
                what = type(program).__name__
            raise BadAnswer("a program is named by its name or its number, not by a value of the type %s" % cut(what))
        if program not in self.numbers:
            raise BadAnswer("no program is named %s: there are %s" % (cut(program), self.listed()))
        return self.numbers[program]

    def listed(self) -> str:
        """The programs, as a message lists them."""
        return ", ".join("%s (%d)" % (one.page_name, one.number) for one in self.programs)

    def program(self, number: int) -> Declared | None:
        """A program by its number, or None."""
        return self.programs[number] if 0 <= number < len(self.programs) else None


def programs_of(texts: Any) -> List[Declared]:
    """The programs of a scenario by their numbers, the built-in ones first; of what is no object of texts these
    alone."""
    try:
        known = Programs({"programs": texts})
        names = [*BUILT_INS, *known.names]
        return [declared(number, name, text) for number, (name, text) in enumerate(zip(names, known.texts))]
    except (AttributeError, TypeError, UnicodeError):
        return programs_of({})


def declared(number: int, name: str, text: str) -> Declared:
    """What the text of a program declares."""
    tree = Program.of(text)
    return Declared(number, name, text, tuple(tree.fields), tuple(tree.controls))
