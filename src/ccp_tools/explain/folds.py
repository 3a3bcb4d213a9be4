"""Inputs of `fold`: a program, a line `---`, and acknowledgement lines; and the fault that a program meets there."""
from __future__ import annotations

import re
from typing import Dict, List, Optional, Set, Tuple

from ..reference.language import Body, Fault, Meaning, State
from ..reference.syntax import CONSTANTS, Node
from ..tables import LIMITS
from ..tables import PRIMITIVES as NAMES
from .findings import Finding, cut, did_you_mean

SENTENCE = (
    "An acknowledgement line is `name=number`, with spaces or tabs between: `now=10 bytes_acked=1500`. Each name is"
    " there at most once; the others are 0."
)
DASHES = ("--", "----", "\u2014", "\u2013-", "-\u2013", "\u2014-")
ACK_LINE = re.compile(r"(?:[A-Za-z]+[.])?[a-z_]+=[0-9]+(?:[ \t]+\S+)*")
FAULT_LINE = re.compile(r"^fault epoch=0 ack=([0-9]+) kind=(\w+) at=([0-9]+):([0-9]+)$", re.MULTILINE)
# what a fault's kind means, and how it is avoided
CAUSES = {
    "Underflow": "There are no negative numbers: to stop at 0 write `(- (max a b) b)`.",
    "Overflow": "The result is above 18446744073709551615, the largest number: bound a part by `min` first.",
    "ZeroDivisor": "To divide by at least 1 write `(/ a (max 1 b))`.",
}


def separator_in(data: bytes) -> Optional[Tuple[int, int]]:
    """Where the line `---` begins, and where the next line does; or None."""
    at = 0
    for line in data.split(b"\n"):
        if (line[:-1] if line.endswith(b"\r") else line) == b"---":
            return at, min(at + len(line) + 1, len(data))
        at += len(line) + 1
    return None


def has_near_separator(text: str) -> bool:
    """Whether a line is meant as the line `---`, but for blanks."""
    return any(line.strip(" \t\r") == "---" for line in text.split("\n"))


def has_ack_lines(text: str) -> bool:
    """Whether the last line that isn't blank is one of an acknowledgement."""
    lines = [line.strip() for line in text.rstrip().split("\n")[-1:]]
    return any(ACK_LINE.fullmatch(line) for line in lines)


# ---- refusals


def no_separator(text: str, reason: str) -> Finding:
    """The finding of an input without a line `---`."""
    at = 0
    for line in text.split("\n"):
        bare = line.strip()
        if line in ("---", "---\r"):
            hint = "The line `---` counts with its line end: end it."
            return Finding("refused", at, at + 3, reason, [hint])
        if bare == "---":
            where = "after" if line.startswith("---") else "before"
            hint = "The line has a blank %s `---`: remove it." % where
            return Finding("refused", at, at + len(line.rstrip("\r")), reason, [hint])
        if bare in DASHES or re.fullmatch(r"[-\u2013\u2014= ]+", bare) and bare:
            hint = "The line between the two parts is `---` and nothing else. It isn't `---`."
            return Finding("refused", at, at + len(line), reason, [hint])
        if line.rstrip("\r").endswith("---"):
            where_at = at + line.rindex("---")
            return Finding(
                "refused", where_at, where_at + 3, reason, ["`---` is on a line of its own: end the line before."]
            )
        if ACK_LINE.fullmatch(bare):
            return Finding("refused", at, at + len(line), reason, ["Put a line `---` before the acknowledgements."])
        at += len(line) + 1
    return Finding(
        "refused", 0, 0, reason, ["A line `---` is needed between the two parts of the input; there is none."]
    )


def line_refusal(text: str, number: int, reason: str) -> Finding:
    """The finding of an acknowledgement line that is refused."""
    lines = text.split("\n")
    start = sum(len(line) + 1 for line in lines[: number - 1])
    line = lines[number - 1]
    line = line[:-1] if line.endswith("\r") else line
    first, last, why = cause_of(line)
    return Finding("refused", start + first, start + last, reason, [SENTENCE, *why])


def cause_of(line: str) -> Tuple[int, int, List[str]]:
    """Where a line stops being one, and why."""
    if line.startswith((" ", "\t")):
        return 0, 1, ["The line begins with a blank: remove it."]
    if line.endswith((" ", "\t")):
        return len(line.rstrip(" \t")), len(line), ["The line ends with a blank: remove it."]
    if line.endswith("\r"):
        return len(line) - 1, len(line), ["The line ends with two carriage returns; one is dropped."]
    if line == "---":
        return 0, 3, ["There is one line `---` alone."]
    if line.startswith(("#", ";", "//")):
        return 0, len(line), ["These lines have no comments."]
    if re.fullmatch(r"flow [0-9]+ case=.*", line):
        return 0, len(line), ["This line is of `acks`: keep the lines of one flow, without its line `flow`."]
    seen: Set[str] = set()
    for found in re.finditer("[^ \t]+", line):
        why = cause_of_part(found.group(), seen)
        if why:
            return found.start(), found.end(), why
    return 0, len(line), []


def cause_of_part(part: str, seen: Set[str]) -> List[str]:
    """Why a part of a line isn't `name=number` with a new name, or nothing."""
    name, _, value = part.partition("=")
    if "," in part or part.endswith(";"):
        return ["Parts have spaces or tabs between them, no commas."]
    if "=" not in part:
        return ["`%s` has no `=`." % cut(part)]
    if not name or not value:
        return ["There are no blanks beside `=`."]
    bare = name.split(".")[-1]
    if name not in NAMES and bare in NAMES:
        return ["Write `%s` without its prefix." % bare]
    if name not in NAMES:
        return ["There is no name `%s`." % cut(name)] + (
            did_you_mean(bare, NAMES) or ["The names are %s." % ", ".join(NAMES)]
        )
    if name in seen:
        return ["`%s` is in the line twice." % name]
    seen.add(name)
    return cause_of_value(name, value)


def cause_of_value(name: str, value: str) -> List[str]:
    """Why a value is refused, or nothing."""
    if name == "was_timeout" and value in ("true", "false", "yes", "no"):
        return ["`was_timeout` is 0 or 1."]
    if not re.fullmatch("[0-9]+", value):
        if value.startswith("-"):
            return ["There are no negative numbers."]
        if re.fullmatch("[0-9]*[.][0-9]*", value):
            return ["Numbers are whole: times in microseconds, sizes in bytes."]
        return ["`%s` isn't decimal digits alone." % cut(value)]
    if int(value[-40:]) >= 2**64 or value[:-40].strip("0"):
        return ["The value is 2^64 or more."]
    if name == "was_timeout" and int(value[-40:]) > 1:
        return ["`was_timeout` is 0 or 1."]
    return []


def too_many(text: str, reason: str) -> Finding:
    """The finding of the first acknowledgement past the most."""
    most = LIMITS["acks"]
    count, at, below = 0, 0, False
    for line in text.split("\n"):
        bare = line.rstrip("\r")
        if below and bare.strip(" \t"):
            count += 1
        if count > most:
            hint = "At most {:,} acknowledgements; this is the first one too many.".format(most)
            return Finding("refused", at, at + len(bare), reason, [hint])
        below = below or bare == "---"
        at += len(line) + 1
    return Finding("refused", 0, 0, reason)


# ---- faults


def fault_of(source: str, lines: str, output: str) -> Optional[Finding]:
    """The finding of the fault in what `fold` printed of a program's text and acknowledgement lines, or None. Its place
    is one of the program's bytes; the values are worked out by the reference model."""
    found = FAULT_LINE.search(output)
    if not found:
        return None
    number, kind = int(found.group(1)), found.group(2)
    meaning = Meaning(source.encode("latin-1").decode("utf-8", "surrogateescape"))
    start = meaning.tree.start_of(int(found.group(3)), int(found.group(4)))
    given = [line for line in lines.split("\n") if line.strip(" \t\r")]
    what = "%s at acknowledgement %d, counted from 0" % (kind, number)
    hints = hints_of_fault(meaning, given[: number + 1], "%s:%s" % found.group(3, 4), kind)
    hints.append("The acknowledgement is `%s`." % cut(given[number].strip(), 160))
    hints.append("A fault undoes the whole acknowledgement and stops the program until the agent's next change.")
    node = meaning.tree.node_at(start)
    return Finding("fault", start, node.end if node else start + 1, what, hints)


def hints_of_fault(meaning: Meaning, given: List[str], place: str, kind: str) -> List[str]:
    """The values at a fault, by a run of the reference model up to it; nothing where it comes to something else."""
    state = meaning.start({}, 0, 0, 0)
    ack: Dict[str, int] = {}
    for line in given:
        ack = {name: int(value) for name, _, value in (word.partition("=") for word in line.split())}
        before = state
        outcome, state = meaning.one(state, ack)
    if not isinstance(outcome, Fault) or (outcome.place, outcome.kind) != (place, kind):
        return []
    return values_of(meaning, outcome, before, ack)


def values_of(meaning: Meaning, fault: Fault, before: State, ack: Dict[str, int]) -> List[str]:
    """The sentences on the two parts of the operation, and on the names in it."""
    node = fault.node.within
    assert node is not None
    shown = cut(re.sub(r"\s+", " ", meaning.tree.text[node.start : node.end]), 100)
    if node.head() == "ewma":
        return ["In `%s` the values %d and %d meet." % (shown, fault.left, fault.right), CAUSES[fault.kind]]
    hints = ["In `%s` the left part is %d and the right part %d." % (shown, fault.left, fault.right)]
    hints.append(CAUSES[fault.kind])
    names = [leaf.text for part in node.parts[1:] for leaf in leaves_of(part) if part.is_list]
    known = Body(before.copy(), ack)
    values = ["`%s` was %d" % (name, known.read(name)) for name in dict.fromkeys(names) if is_known(meaning, name)]
    return hints + (["Before this acknowledgement %s." % ", ".join(values)] if values else [])


def is_known(meaning: Meaning, name: str) -> bool:
    """Whether a name has a value from one acknowledgement to the next."""
    return name in meaning.declared or name in ("Cwnd", "Rate")


def leaves_of(node: Node) -> List[Node]:
    """The names in an expression."""
    if not node.is_list:
        return [] if node.text[0].isdigit() or node.text in CONSTANTS else [node]
    return [leaf for part in node.parts[1:] for leaf in leaves_of(part)]
