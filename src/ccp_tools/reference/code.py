"""Where the instructions of a program's code stand in its source.

A fault is named by its place in texts, and by the number of its instruction in frames. The compiler makes one code of a
program (docs/code.md): a line for each operation after those of its parts, none for a part that is a name or a number,
or that has no name and doesn't fault, and one for each other command."""
from __future__ import annotations

from typing import List, Optional

from .language import MEANINGS, MOST, Meaning
from .syntax import CONSTANTS, OPERATORS, Node

# of each instruction the word that heads its operation; None where it can't fault
Heads = List[Optional[Node]]


def heads(meaning: Meaning) -> Heads:
    """The head of each instruction of a program's code, in order."""
    made: Heads = []
    for condition, commands in meaning.blocks:
        made += of_value(condition)
        for command in commands:
            made += of_command(command)
    return made


def places(meaning: Meaning) -> List[str]:
    """The place of each instruction in the source, as line:column; one that can't fault has 1:1."""
    found = [(1, 1) if head is None else meaning.tree.place(head.start) for head in heads(meaning)]
    return ["%d:%d" % place for place in found]


def of_command(command: Node) -> Heads:
    """The heads of a command's instructions."""
    if command.head() in ("report", "fallthrough") or command.parts[1].text == "Micros":
        return [None]
    value = command.parts[2]
    head = value.head() if value.is_list else ""
    if head in ("if", "!if"):
        return [*of_operand(value.parts[1]), *of_operand(value.parts[2]), None]
    if head == "ewma":
        return [*of_operand(value.parts[2]), value.parts[0]]
    return of_value(value)


def of_value(node: Node) -> Heads:
    """The heads of the instructions that put an expression's value somewhere."""
    if known(node) is not None or not node.is_list:
        return [None]
    head, left, right = node.parts
    return [*of_operand(left), *of_operand(right), head]


def of_operand(node: Node) -> Heads:
    """The heads of the instructions that an operand needs: none where it is a name or a known number."""
    return [] if known(node) is not None or not node.is_list else of_value(node)


def known(node: Node) -> Optional[int]:
    """The value of an expression that has no name and doesn't fault, else None."""
    if not node.is_list:
        return int(node.text) if node.text[0].isdigit() else CONSTANTS.get(node.text)
    head, left, right = node.parts
    word, one, other = OPERATORS[head.text], known(left), known(right)
    if one is None or other is None or word == "div" and other == 0:
        return None
    value = MEANINGS[word](one, other)
    return value if 0 <= value <= MOST else None
