"""What the sub-commands have in common: parsers of values, and options that mean the same in each of them.

A value's parser takes a text and returns the value, or raises argparse.ArgumentTypeError with a line for the user."""
from __future__ import annotations

import argparse
import re
import sys
from difflib import get_close_matches
from typing import Any, Callable, List, NoReturn, Sequence, TypeVar

from .errors import UsageError, one_line

Value = TypeVar("Value")
Parse = Callable[[str], Value]

# the most values that one range may stand for
LONGEST_RANGE = 100_000


class Parser(argparse.ArgumentParser):
    """A parser of arguments, also of those after a command's own sub-command. Options aren't abbreviated, --quiet is
    accepted everywhere, and what is wrong is a UsageError."""

    def __init__(self, *args: Any, **more: Any) -> None:
        more.setdefault("formatter_class", argparse.RawDescriptionHelpFormatter)
        more.setdefault("allow_abbrev", False)
        super().__init__(*args, **more)
        # without a default, so that a sub-command's parser doesn't undo what came before it
        quiet = "no progress and no warnings on standard error"
        self.add_argument("--quiet", action="store_true", default=argparse.SUPPRESS, help=quiet)

    def error(self, message: str) -> NoReturn:
        """Ends with a UsageError of one line, which the command prints with status 2."""
        found = re.match(r"unrecognized arguments: (--[^ =]+)", message)
        if found:
            known = [name for name, action in self._option_string_actions.items() if action.help != argparse.SUPPRESS]
            near = [name for name in known if name.startswith(found[1])] or likely(found[1], known)
            message += " (did you mean %s?)" % near[0] if near else ""
            message += " (%s --help lists the options)" % self.prog
        raise UsageError(message.replace("\n", " "))


def likely(option: str, known: Sequence[str]) -> List[str]:
    """The option that a user likely meant, if there is one. The dashes, which all have, don't count."""
    words = {name.lstrip("-"): name for name in known}
    return [words[word] for word in get_close_matches(option.lstrip("-"), words, 1)]


def group_of(parser: argparse.ArgumentParser, title: str) -> argparse._ArgumentGroup:
    """The group of options with a title in a parser's help, which is made where there is none."""
    for group in parser._action_groups:
        if group.title == title:
            return group
    return parser.add_argument_group(title)


# ---- values


def whole(least: int, most: int) -> Parse[int]:
    """A parser of whole numbers of a range, in decimal digits."""

    def parse(text: str) -> int:
        text = text.strip(" ")
        if not re.fullmatch(r"[0-9]{1,20}", text) or not least <= int(text) <= most:
            raise argparse.ArgumentTypeError("%s isn't a whole number from %d to %d" % (shown(text), least, most))
        return int(text)

    return parse


def shown(text: str) -> str:
    """A word of the user as a message shows it."""
    return "an empty word" if not text else text if len(text) <= 60 else text[:57] + "..."


def list_of(parse: Parse[Value], most: int | None = None) -> Parse[List[Value]]:
    """A parser of values with commas between; blanks around a comma are skipped. At most `most` values are accepted."""

    def parse_list(text: str) -> List[Value]:
        parts = [part.strip() for part in text.split(",")]
        if not all(parts):
            raise argparse.ArgumentTypeError("%s: a value is expected before and after each comma" % shown(text))
        if most is not None and len(parts) > most:
            raise argparse.ArgumentTypeError("%d values: at most %d are accepted" % (len(parts), most))
        return [parse(part) for part in parts]

    return parse_list


def ranges(parse: Parse[Value], step: Parse[int] = whole(1, 2**32 - 1)) -> Parse[List[Value]]:
    """A parser of a list of different numbers, in which FIRST..LAST and FIRST..LAST:STEP are ranges. `parse` reads a
    number and `step` a step, in the same unit; the order is that of the text, and a number that comes again is left
    out. FROM:TO:STEP, the form of ranges until 0.9, is accepted with a warning."""

    def parse_ranges(text: str) -> List[Value]:
        parts = list_of(str)(text)
        return list(dict.fromkeys(value for part in parts for value in one_range(part, parse, step)))

    return parse_ranges


def one_range(text: str, parse: Parse[Any], step: Parse[int]) -> List[Any]:
    """The values of a number or a range."""
    found = re.fullmatch(r"([^:]+?)\.\.([^:]+?)(?::([^:]+))?", text)
    old = re.fullmatch(r"([^:]+):([^:]+):([^:]+)", text)
    if old and not found:
        warn("%s: a range is written %s..%s:%s" % (text, *old.groups()))
        found = old
    if not found:
        return [parse(text)]
    first, last, by = (
        parse(found.group(1)),
        parse(found.group(2)),
        step(found.group(3)) if found.group(3) else step("1"),
    )
    if not isinstance(first, int) or not isinstance(last, int) or last < first:
        raise argparse.ArgumentTypeError(
            "%s: a range is FIRST..LAST or FIRST..LAST:STEP with FIRST at most LAST" % shown(text)
        )
    if (last - first) // by > LONGEST_RANGE:
        raise argparse.ArgumentTypeError("%s: a range has at most %d numbers" % (shown(text), LONGEST_RANGE))
    return list(range(first, last + 1, by))


def named_file(text: str) -> tuple[str, str]:
    """The name and the file of NAME=FILE. A name has 1 to 32 letters, digits, _, - and dots."""
    name, is_there, path = text.partition("=")
    if not is_there or not path or not is_name(name):
        raise argparse.ArgumentTypeError(
            "%s isn't NAME=FILE with a name of 1 to 32 letters, digits, _, - and ." % shown(text)
        )
    return name, path


def is_name(text: str) -> bool:
    """Whether a text is a name of a scenario, as that of a case, a trace or a program."""
    return bool(re.fullmatch(r"[A-Za-z0-9_.-]{1,32}", text))


# ---- options


def add_ccp(parser: argparse._ActionsContainer) -> None:
    """Adds --ccp PATH, the program to run, as `arguments.ccp` (None where it isn't given)."""
    parser.add_argument("--ccp", metavar="PATH", help="the program ccp (CCP_PROGRAM, or the one that ./ccp runs)")
    deprecated(parser, "--program", "--ccp")


def add_portus(parser: argparse._ActionsContainer) -> None:
    """Adds --portus NAME=FILE, a program's text, as the list `arguments.portus` of pairs."""
    parser.add_argument(
        "--portus",
        type=named_file,
        action="append",
        default=[],
        metavar="NAME=FILE",
        help="the text of a program of your own, by which --senders names it",
    )


def deprecated(parser: argparse._ActionsContainer, old: str, new: str) -> None:
    """Accepts the option `old` for `new`, which the parser has already, with a warning on standard error. It isn't in
    the help, and goes with version 2.0."""
    target = parser._option_string_actions[new]

    class Deprecated(type(target)):  # type: ignore[misc]
        def __call__(self, parser: Any, namespace: Any, values: Any, option_string: str | None = None) -> None:
            warn("%s is now %s" % (old, new))
            target(parser, namespace, values, new)

    action = Deprecated.__new__(Deprecated)
    action.__dict__.update(target.__dict__)
    action.option_strings, action.help, action.required = [old], argparse.SUPPRESS, False
    parser._add_action(action)


def warn(text: str) -> None:
    """Prints a warning on standard error."""
    print("ccp: warning: %s" % one_line(text), file=sys.stderr, flush=True)


def one_of(words: Sequence[str]) -> str:
    """Words as a sentence lists them: `a, b or c`."""
    return words[0] if len(words) == 1 else "%s or %s" % (", ".join(words[:-1]), words[-1])
