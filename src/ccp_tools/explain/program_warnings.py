"""What is likely meant otherwise in a program that `ccp` accepts."""
from __future__ import annotations

from dataclasses import dataclass, field
from typing import Dict, Iterator, List, Optional, Sequence, Set, Tuple

from ..reference.language import MEANINGS, MOST
from ..reference.syntax import CONSTANTS, OPERATORS, RESERVED, WRITTEN, Node, Program
from ..tables import PRIMITIVE_WORDS
from .findings import cut, listed

# an agent answers reports that have one of these fields; the others it only reads
ANSWERED = ("acked", "loss", "timeout", "ecn")
# what an agent needs of its program
NEEDED = ("acked", "loss", "timeout", "rtt", "inflight")
LANGUAGE = [word for word in sorted(RESERVED) if word[0].isalpha()]


@dataclass(frozen=True)
class Warning:
    """Something in an accepted program that is likely meant otherwise. `line` and `column` count from 1, columns in
    bytes; `start` and `end` are places in the text read as Latin-1."""

    text: str
    line: int
    column: int
    start: int
    end: int
    hints: List[str] = field(default_factory=list)

    def __str__(self) -> str:
        return "%d:%d: %s" % (self.line, self.column, self.text)


def warnings_of(program_text: str, is_outside: bool = False) -> List[Warning]:
    """The warnings of a program that `ccp` accepts, in the order of their places. `is_outside` says that an agent
    outside answers its reports, which reads any fields."""
    return Watch(Program.of(program_text), is_outside).warnings()


class Watch:
    """A program that is looked through. `found` are the warnings so far."""

    def __init__(self, program: Program, is_outside: bool = False) -> None:
        self.program = program
        self.is_outside = is_outside
        self.found: List[Warning] = []
        self.infinite = infinite_names(program)
        self.reached = list(self._reached())

    def warn(self, node: Optional[Node], text: str, *hints: str) -> None:
        """Adds a warning at a node, or at the beginning."""
        start = node.start if node else 0
        end = node.end if node else start + 1
        line, column = self.program.place(start)
        self.found.append(Warning(text, line, column, start, end, [hint for hint in hints if hint]))

    def warnings(self) -> List[Warning]:
        """All warnings, in the order of their places."""
        for body in self.program.blocks():
            self._locals(body)
        self._infinities()
        if not self.is_outside:
            self._fields()
        self._reports()
        return sorted(self.found, key=lambda one: one.start)

    # ---- blocks

    def _reached(self) -> Iterator[Node]:
        """The blocks that can run; of the others there are warnings."""
        last: Optional[Node] = None
        for block in self.program.blocks():
            if len(block.parts) < 2:
                continue
            condition = constant_of(block.parts[1])
            if last is not None:
                line, _ = self.program.place(last.start)
                text = "this block is never reached: the block of line %d always runs and has no `(fallthrough)`" % line
                self.warn(block.parts[0], text)
            elif condition == 0:
                self.warn(block.parts[1], "this block never runs: its condition is never true")
            else:
                yield block
                if condition is not None and not any(command.head() == "fallthrough" for command in block.parts[2:]):
                    last = block

    # ---- locals

    def _locals(self, block: Node) -> None:
        """Locals that nothing reads, or that look like another name."""
        known = ["Report." + name for name in self.program.fields] + self.program.controls + WRITTEN
        first: Dict[str, Node] = {}
        read: Set[str] = set()
        for command in block.parts[2:]:
            if command.head() not in (":=", "bind") or len(command.parts) != 3:
                continue
            target, value = command.parts[1], command.parts[2]
            read |= {leaf.text for leaf in leaves_of(value)}
            if value.head() == "ewma" or target.text in known:
                continue
            first.setdefault(target.text, target)
        for name, node in first.items():
            meant = self._meant(name)
            unread = "nothing reads it" if name not in read else ""
            if meant or unread:
                text = "`%s` is a local of this body" % cut(name) + (", and " + unread if unread else "")
                self.warn(node, text, meant or "A local ends with its body: declare it in `def` to keep its value.")

    def _meant(self, name: str) -> str:
        """What a local is likely meant as, or the empty text."""
        if name in self.program.fields:
            return "A field is assigned with its prefix: `Report.%s`." % name
        low = name.lower()
        others = [
            *LANGUAGE,
            *self.program.controls,
            *("Report." + one for one in self.program.fields),
            *PRIMITIVE_WORDS,
        ]
        for other in others:
            if other != name and low == other.lower():
                return "Did you mean `%s`?" % other
        for one in self.program.fields:
            if low == one.lower():
                return "Did you mean `Report.%s`?" % one
        for primitive in PRIMITIVE_WORDS:
            if low == primitive.split(".")[1]:
                return "The primitive is `%s`, and can only be read." % primitive
        return ""

    # ---- +infinity

    def _infinities(self) -> None:
        """Sums and products of `+infinity`, which fault. A name that is declared `+infinity` isn't so any more once
        every acknowledgement has assigned it before, or each one that meets the condition of this block."""
        settled: Set[str] = set()
        under: List[Tuple[Node, Set[str]]] = []
        for block in self.reached:
            # what an earlier block assigned holds where its whole condition is a part of this one's
            parts = {self._text(part) for part in conjuncts(block.parts[1])}
            known = settled.union(*(names for condition, names in under if self._text(condition) in parts))
            self._infinite_in(block.parts[1], known)
            commands = [part for part in block.parts[2:] if part.head() in (":=", "bind") and len(part.parts) == 3]
            again: Set[str] = set()
            for command in commands:
                self._infinite_in(command.parts[2], known)
                self._infinite_blend(command, known)
                self._settle(command, known, again)
            if not any(part.head() == "fallthrough" for part in block.parts[2:]):
                # no later block sees what this one assigned: the acknowledgement ends with it
                continue
            # a condition of which a name is assigned may hold later where it didn't before
            assigned = {command.parts[1].text for command in commands}
            under = [one for one in [*under, (block.parts[1], known)] if not assigned & texts_in(one[0])]
            settled, under = settled - again, [(condition, names - again) for condition, names in under]
            if constant_of(block.parts[1]) not in (None, 0):
                settled = known

    def _settle(self, command: Node, known: Set[str], again: Set[str]) -> None:
        """Adds the name that a command assigns to those that are known not to be infinite, or, where it may be, to
        those that are so again."""
        name, value = command.parts[1].text, command.parts[2]
        is_choice = value.head() in ("if", "!if")
        if any(self._is_infinite(part, known) for part in (value.parts[2:] if is_choice else [value])):
            known.discard(name)
            again.add(name)
        elif not is_choice and value.head() != "ewma":
            known.add(name)
            again.discard(name)

    def _text(self, node: Node) -> str:
        """A node as it is written, with one blank between words."""
        return "(%s)" % " ".join(map(self._text, node.parts)) if node.is_list else node.text

    def _is_infinite(self, node: Node, settled: Set[str]) -> bool:
        if node.is_list:
            return False
        return node.text == "+infinity" or node.text in self.infinite and node.text not in settled

    def _infinite_in(self, node: Node, settled: Set[str]) -> None:
        for part in node.parts:
            self._infinite_in(part, settled)
        if OPERATORS.get(node.head()) not in ("add", "mul") or len(node.parts) != 3:
            return
        kind = "sum" if OPERATORS[node.head()] == "add" else "product"
        for part, other in ((node.parts[1], node.parts[2]), (node.parts[2], node.parts[1])):
            # what adds 0, or multiplies by 0 or 1, is no fault
            if self._is_infinite(part, settled) and constant_of(other) not in ((0,) if kind == "sum" else (0, 1)):
                self._warn_infinite(part, "a %s of it is a fault (`Overflow`)" % kind)
                return

    def _infinite_blend(self, command: Node, settled: Set[str]) -> None:
        target, value = command.parts[1], command.parts[2]
        if value.head() != "ewma" or len(value.parts) != 3:
            return
        for part in (target, value.parts[2]):
            if self._is_infinite(part, settled):
                self._warn_infinite(part, "`ewma` multiplies it, which is a fault (`Overflow`)")
                return

    def _warn_infinite(self, node: Node, why: str) -> None:
        shown = cut(node.text)
        if node.text == "+infinity":
            self.warn(node, "`+infinity` is 2^64-1: " + why)
            return
        text = "`%s` begins as `+infinity`: %s" % (shown, why)
        self.warn(
            node, text, "Assign it before, as `(:= %s (min %s ..))`, or declare a smaller number." % (shown, shown)
        )

    # ---- the agent, the window, reports

    def _commands(self) -> Iterator[Node]:
        for block in self.reached:
            yield from block.parts[2:]

    def _moves_window(self) -> bool:
        return any(command.parts[1].text == "Cwnd" for command in self._commands() if len(command.parts) == 3)

    def _fields(self) -> None:
        """Fields that an agent reads, where the program isn't one for an agent; and a window that nothing moves."""
        answered = [name for name in ANSWERED if name in self.program.fields]
        missing = [name for name in NEEDED if name not in self.program.fields]
        moves = self._moves_window()
        if answered and missing:
            node = self._declaration(answered[0])
            text = "an agent reads the field%s %s, and answers this program's reports" % (
                "s" if len(answered) > 1 else "",
                listed(answered),
            )
            own = (
                "Choose another name, as `lost` for `loss`, where the program is to move the window alone."
                if moves
                else ""
            )
            self.warn(node, text, own, "A program for an agent has %s too." % listed(missing))
        if not moves and not answered:
            node = self.program.forms[0].parts[0] if self.program.forms and self.program.forms[0].parts else None
            text = (
                "the window never moves: no command that is reached assigns `Cwnd`, and no field makes an agent answer"
            )
            self.warn(node, text)

    def _declaration(self, name: str) -> Optional[Node]:
        """Where a field is declared."""
        for node in self.program.nodes:
            if node.text == name and node.within is not None and node.within.within is not None:
                if node.within.within.head() == "Report":
                    return node
        return None

    def _reports(self) -> None:
        if not any(command.head() == "report" for command in self._commands()):
            node = self.program.forms[0].parts[0] if self.program.forms and self.program.forms[0].parts else None
            self.warn(
                node,
                "it never reports: no `(report)` is reached",
                "Without reports no agent answers, and there is no timeline.",
            )


def infinite_names(program: Program) -> Set[str]:
    """The names that are declared `+infinity`."""
    found = set()
    for node in program.nodes:
        if node.text != "+infinity" or node.within is None or node.form().head() != "def":
            continue
        words = [part.text for part in node.within.parts]
        is_field = node.within.within is not None and node.within.within.head() == "Report"
        if len(words) >= 2 and node.index == len(words) - 1:
            found.add(("Report." if is_field else "") + words[-2])
    return found


def leaves_of(node: Node) -> Iterator[Node]:
    """The atoms of an expression but for the words that head its lists."""
    if not node.is_list:
        yield node
    for part in node.parts[1:]:
        yield from leaves_of(part)


def texts_in(node: Node) -> Set[str]:
    """The names and numbers of an expression."""
    return {leaf.text for leaf in leaves_of(node)}


def conjuncts(node: Node) -> List[Node]:
    """A condition and its parts that `&&` joins."""
    inner = node.parts[1:] if OPERATORS.get(node.head()) == "and" else []
    return [node, *(one for part in inner for one in conjuncts(part))]


def constant_of(node: Node) -> Optional[int]:
    """The value of an expression that has no names, or None."""
    if not node.is_list:
        return int(node.text) if node.text.isdigit() else CONSTANTS.get(node.text)
    word = OPERATORS.get(node.head())
    if word is None or len(node.parts) != 3:
        return None
    left, right = constant_of(node.parts[1]), constant_of(node.parts[2])
    if left is None or right is None or word == "div" and right == 0:
        return absorbed(word, left, right)
    value = MEANINGS[word](left, right)
    return value if 0 <= value <= MOST else None


def absorbed(word: str, left: Optional[int], right: Optional[int]) -> Optional[int]:
    """The value of `&&` and `||` where one part decides it and the other isn't known."""
    known: Sequence[int] = [part for part in (left, right) if part is not None]
    if word == "or" and any(part != 0 for part in known):
        return 1
    if word == "and" and any(part == 0 for part in known):
        return 0
    return None
