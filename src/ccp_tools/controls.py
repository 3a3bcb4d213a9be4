"""Control variables of a program by their names: the numbers that its text declares them with, and the text with other
ones. A constant of a program is such a variable that nothing writes, as `(high 4)`."""
from __future__ import annotations

import re
from functools import lru_cache
from typing import Dict, List, Mapping

from .errors import CcpError, cut
from .reference.syntax import CONSTANTS, Node, Program

# the greatest number of the language
MOST = 2**64 - 1


@lru_cache(maxsize=64)
def declarations(text: str) -> Mapping[str, Node]:
    """The word of the value of each control variable of a program's text, by the variable's name."""
    program = Program(text)
    parts: List[Node] = program.forms[0].parts[1:] if program.forms and program.forms[0].is_list else []
    found: Dict[str, Node] = {}
    for part in parts:
        words = [word for word in part.parts if not word.is_list]
        words = words[1:] if len(words) == 3 and words[0].text == "volatile" else words
        if len(words) == 2 and part.head() != "Report":
            found[words[0].text] = words[1]
    return found


def number_of(text: str, name: str, place: str = "program") -> int:
    """The number that a program's text declares a control variable with. `place` names the program where there is no
    such variable, or where it is true or false: a CcpError."""
    found = declarations(text)
    if name not in found:
        there = ", ".join(found) or "none"
        raise CcpError("%s: it has no control variable %s: there are %s" % (place, cut(name), cut(there)))
    word = found[name].text
    if re.fullmatch("[0-9]{1,20}", word):
        return int(word)
    if CONSTANTS.get(word) == MOST:
        return MOST
    raise CcpError("%s: the control variable %s is %s, and a number is expected" % (place, name, cut(word)))


def with_numbers(text: str, numbers: Mapping[str, int]) -> str:
    """A program's text that declares control variables with other numbers. All else stays, comments too."""
    found = declarations(text)
    for name in sorted(numbers, key=lambda name: -found[name].start):
        node = found[name]
        text = text[: node.start] + str(numbers[name]) + text[node.end :]
    return text
