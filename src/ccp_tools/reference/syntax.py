"""Program texts as trees: their tokens and lists with places, and the names that they declare.

Any text is read as far as it goes, so that a text that `ccp` refuses can be shown too. Places are characters of the
text read as Latin-1, one character a byte, since the columns of `ccp` count bytes."""
from __future__ import annotations

import re
from typing import List, Optional, Sequence, Tuple

from ..tables import MARKS, PRIMITIVE_WORDS

# the word of each operator by what a program may write for it: its mark, or the word itself
OPERATORS = {text: word for word, mark in MARKS.items() for text in (mark, word)}
CONSTANTS = {"true": 1, "false": 0, "+infinity": 2**64 - 1}
WRITTEN = ["Cwnd", "Rate", "Micros"]
COMMANDS = [":=", "bind", "report", "fallthrough"]
FORMS = ["def", "when", "Report", "volatile", "if", "!if", "ewma"]
RESERVED = set(OPERATORS) | set(CONSTANTS) | set(WRITTEN) | set(COMMANDS) | set(FORMS)
TOKEN = re.compile(r"#[^\n]*|[()]|[^ \t\r\n()#]+")


class Node:
    """An atom, or a list, from the character `start` to before `end`. `within` is the list that it is a part of, and
    `index` its number there from 0."""

    def __init__(self, start: int, text: str, within: Optional[Node]) -> None:
        self.start = start
        self.end = start + len(text)
        self.text = text
        self.is_list = text == "("
        self.parts: List[Node] = []
        self.within = within
        self.index = len(within.parts) if within else 0

    def head(self) -> str:
        """The word that a list begins with, or the empty text."""
        return self.parts[0].text if self.parts and not self.parts[0].is_list else ""

    def is_in(self, other: Node) -> bool:
        """Whether this node is another one, or a part of it at any depth."""
        node: Optional[Node] = self
        while node is not None and node is not other:
            node = node.within
        return node is other

    def form(self) -> Node:
        """The form of the text that this node is in."""
        node = self
        while node.within is not None and node.within.within is not None:
            node = node.within
        return node

    def assigns(self) -> bool:
        """Whether this is the target of an assignment."""
        return self.index == 1 and not self.is_list and self.within is not None and self.within.head() in (":=", "bind")


class Program:
    """The forms of a text as far as it can be read, and the names that it declares: `fields` without `Report.`, and
    `controls`."""

    def __init__(self, text: str) -> None:
        self.text = text
        self.nodes: List[Node] = []
        self.forms = self._read()
        self.fields, self.controls = self._declared()

    @classmethod
    def of(cls, text: str) -> Program:
        """The program of a text of characters."""
        return cls(text.encode("utf-8", "surrogateescape").decode("latin-1"))

    def _read(self) -> List[Node]:
        root = Node(0, "(", None)
        within = root
        for found in TOKEN.finditer(self.text):
            word = found.group()
            if word.startswith("#"):
                continue
            if word == ")":
                within.end = found.end()
                within = within.within or root
                continue
            node = Node(found.start(), word, within)
            within.parts.append(node)
            self.nodes.append(node)
            if node.is_list:
                node.end = len(self.text)
                within = node
        return root.parts

    def _declared(self) -> Tuple[List[str], List[str]]:
        parts = self.forms[0].parts[1:] if self.forms and self.forms[0].is_list else []
        groups = [part for part in parts if part.head() == "Report"]
        fields = [field for group in groups for field in group.parts[1:]]
        return declared(fields), declared([part for part in parts if part not in groups])

    def blocks(self) -> List[Node]:
        """The lists `(when ..)`."""
        return [form for form in self.forms[1:] if form.head() == "when"]

    def node_at(self, start: int) -> Optional[Node]:
        """The list or atom that begins at a place, or None."""
        return next((node for node in self.nodes if node.start == start), None)

    def place(self, start: int) -> Tuple[int, int]:
        """The line and the column of a character, from 1."""
        return self.text.count("\n", 0, start) + 1, start - self.text.rfind("\n", 0, start)

    def start_of(self, line: int, column: int) -> int:
        """The character at a line and a column of `ccp`."""
        begins = [0] + [found.end() for found in re.finditer("\n", self.text)]
        return min(begins[min(line, len(begins)) - 1] + column - 1, len(self.text))

    def locals_before(self, node: Node) -> Tuple[List[str], List[str]]:
        """The names that are assigned before a node in its body, and those of other places."""
        within = node.form()
        here: List[str] = []
        elsewhere: List[str] = []
        for other in self.nodes:
            if other.assigns() and is_name(other.text) and other.within is not None:
                before = other.form() is within and other.start < node.start and not node.is_in(other.within)
                (here if before else elsewhere).append(other.text)
        return here, elsewhere

    def names(self, node: Node) -> List[str]:
        """The words that have a meaning at a node."""
        here, _ = self.locals_before(node)
        fields = ["Report." + name for name in self.fields]
        return [*fields, *self.controls, *PRIMITIVE_WORDS, *WRITTEN, *CONSTANTS, *here]


def declared(parts: Sequence[Node]) -> List[str]:
    """The names that some declarations declare."""
    words = [[word.text for word in part.parts if not word.is_list] for part in parts]
    return [(found[1:] if found[0] == "volatile" else found)[0] for found in words if found and found != ["volatile"]]


def is_name(word: str) -> bool:
    """Whether a word is shaped as a name."""
    return re.fullmatch("[A-Za-z_][A-Za-z0-9_.]*", word) is not None
