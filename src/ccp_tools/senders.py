"""Lists of senders, as --senders of every command takes them.

A sender is an agent, as `reno`, or an agent with programs of your own:

    AGENT                       an agent, as reno or cubic, with its built-in programs
    linux-reno, linux-cubic     programs that come with ccp, which do on each acknowledgement what Linux's senders do
    LABEL=PROGRAM               the program in slow start and in congestion avoidance, with Reno as the agent
    [LABEL=]AGENT:PROGRAM       the same with this agent
    [LABEL=]AGENT:SLOW:AVOID    a program for each; the built-in one where a program is left out, as in reno::AVOID
    [LABEL=]FILE.py             an agent outside, of a Python file (ccp_tools.drive), where a command accepts one

A PROGRAM is a name that --portus NAME=FILE gives, or a file."""
from __future__ import annotations

import argparse
from dataclasses import dataclass, replace
from functools import partial
from itertools import product
from pathlib import Path
from typing import Dict, Iterator, List, Sequence, Tuple

from . import controls
from .arguments import Parse, add_portus, is_name, list_of, one_of, ranges, shown, whole
from .errors import CcpError, UsageError, cut
from .files import read_text
from .tables import AGENTS, LIMITS

# the programs of examples/like-linux
PROGRAMS = Path(__file__).resolve().parent / "like_linux"
FORMS = "AGENT, linux-reno, linux-cubic, LABEL=PROGRAM, [LABEL=]AGENT:PROGRAM and [LABEL=]AGENT:SLOW-START:AVOIDANCE"


# what texts and scenarios call an agent outside, and how its file's name ends
OWN = "own"
OUTSIDE = ".py"


@dataclass(frozen=True)
class Sender:
    """A sender: its label, its agent, and its programs for slow start and for congestion avoidance. A program is a
    name of --portus or a file's path, and None where the built-in one runs. `file` is that of an agent outside, whose
    agent is OWN and which has no such program. `numbers` are control variables of the programs with their numbers,
    where --set gives others than the programs declare."""

    label: str
    agent: str
    slow: str | None = None
    avoid: str | None = None
    file: str | None = None
    numbers: Tuple[Tuple[str, int], ...] = ()

    def programs(self) -> List[str]:
        """Its own programs, each once."""
        return list(dict.fromkeys(name for name in (self.slow, self.avoid) if name))


def program_of(name: str) -> str:
    """The path of a program that comes with ccp."""
    return str(PROGRAMS / (name + ".portus"))


# senders that come with ccp, by their labels
LIKE_LINUX = {
    one.label: one
    for one in (
        Sender("linux-reno", "reno", program_of("linux_reno"), program_of("linux_reno")),
        Sender("linux-cubic", "cubic", program_of("linux_cubic"), program_of("linux_cubic")),
    )
}
# the words of --senders where none is named
DEFAULT = ",".join(LIKE_LINUX)


def sender(text: str, accepts_outside: bool = False) -> Sender:
    """A parser of one sender."""
    label, is_labelled, rest = text.partition("=")
    if not is_labelled:
        label, rest = "", text
    elif not is_name(label) or label in (*AGENTS, *LIKE_LINUX) and rest != label:
        names = one_of([*AGENTS, *LIKE_LINUX])
        raise argparse.ArgumentTypeError(
            "%s: a label has 1 to 32 letters, digits, _, - and ., and isn't %s" % (shown(text), names)
        )
    if rest.endswith(OUTSIDE):
        if not accepts_outside:
            text = "%s is an agent outside: `ccp compare` runs one, and `python3 -m ccp_tools.drive`" % shown(rest)
            raise argparse.ArgumentTypeError(text)
        return Sender(label or base_name(rest), OWN, file=rest)
    if rest in LIKE_LINUX:
        return replace(LIKE_LINUX[rest], label=label or rest)
    agent, *programs = rest.split(":") if rest.split(":")[0] in AGENTS else ["reno", rest] if label else [rest]
    if agent not in AGENTS or len(programs) > 2 or (programs and not programs[-1]):
        accepted = "%s are accepted, where AGENT is %s" % (FORMS, " or ".join(AGENTS))
        raise argparse.ArgumentTypeError("%s is no sender: %s" % (shown(text), accepted))
    slow, avoid = (programs[0] or None, programs[-1]) if programs else (None, None)
    return Sender(label or label_of(agent, slow, avoid), agent, slow, avoid)


def label_of(agent: str, slow: str | None, avoid: str | None) -> str:
    """The label of a sender that has none of its own: its agent and its programs, with dots between."""
    parts = [agent, *(base_name(name) for name in (slow, avoid) if name)]
    return ".".join(dict.fromkeys(parts))


def base_name(program: str) -> str:
    """A program's name, or that of its file without folders and without its ending."""
    if is_name(program) and "/" not in program and not program.endswith(".portus"):
        return program
    base = program.rpartition("/")[2]
    for ending in (".portus", OUTSIDE):
        base = base[: -len(ending)] if base.endswith(ending) else base
    return "".join(letter if is_name(letter) else "-" for letter in base) or "program"


def senders(most: int | None = None, accepts_outside: bool = False) -> Parse[List[Sender]]:
    """A parser of a list of at most `most` senders with different labels, for commands in which a label stands for one
    sender. Flows over one bottleneck may have the same sender, so `add_senders` has no such rule."""
    listed = list_of(partial(sender, accepts_outside=accepts_outside), most)

    def parse(text: str) -> List[Sender]:
        found = listed(text)
        try:
            check_labels(found)
        except UsageError as error:
            raise argparse.ArgumentTypeError(str(error)) from None
        return found

    return parse


def check_labels(found: Sequence[Sender]) -> None:
    """Refuses senders with equal labels, where a label stands for one of them."""
    labels = [one.label for one in found]
    for label in labels:
        if labels.count(label) > 1:
            raise UsageError("two senders have the label %s: LABEL=AGENT:.. gives another" % label)


def add_senders(parser: argparse._ActionsContainer, most: int | None = None, required: bool = False) -> None:
    """Adds --senders LIST, as the list `arguments.senders` (None where it isn't given), and --portus NAME=FILE."""
    forms = [*LIKE_LINUX, *AGENTS, "LABEL=PROGRAM", "LABEL=AGENT:PROGRAM"]
    what = "the senders, with commas between: %s (%s)" % (", ".join(forms), DEFAULT)
    parser.add_argument("--senders", type=list_of(sender, most), required=required, metavar="LIST", help=what)
    add_portus(parser)


def resolved(found: Sequence[Sender], portus: Sequence[Tuple[str, str]]) -> Tuple[List[Sender], Dict[str, str]]:
    """The senders with names of programs alone, and the programs' texts by their names. A file that --senders names
    has the sender's label as its name, or LABEL.ss and LABEL.ca where two files are named."""
    texts = {name: read_text(path) for name, path in portus}
    made = []
    for one in found:
        slow, avoid = (named_in(one, role, texts) for role in ("slow", "avoid"))
        made.append(replace(one, slow=slow, avoid=avoid))
    # a program that --set makes others of is none of the scenario's, unless a sender runs it as it is
    changed = {name for one in found if one.numbers for name in one.programs()}
    used = {name for one in found if not one.numbers for name in one.programs()}
    return made, {name: text for name, text in texts.items() if name not in changed - used}


def named_in(one: Sender, role: str, texts: Dict[str, str]) -> str | None:
    """The name of a sender's program in a role; a file's text is read, and added to the texts."""
    program = getattr(one, role)
    if program is None or program in texts and not one.numbers:
        return program
    name = name_in(one, role)
    text = with_numbers(one, texts[program] if program in texts else text_of_program(one, program))
    if not is_name(name) or texts.get(name, text) != text:
        raise CcpError("the sender %s: its program needs a name of its own: --portus NAME=%s" % (one.label, program))
    texts[name] = text
    return name


def name_in(one: Sender, role: str) -> str:
    """The name of a program that a sender's file in a role gets."""
    return one.label if one.slow == one.avoid else "%s.%s" % (one.label, "ss" if role == "slow" else "ca")


def files_of(found: Sequence[Sender], portus: Sequence[Tuple[str, str]]) -> Dict[str, str]:
    """The files of programs, by the names that `resolved` gives their texts."""
    files = dict(portus)
    for one in found:
        for role in ("slow", "avoid"):
            program = getattr(one, role)
            if program and (one.numbers or program not in files):
                files[name_in(one, role)] = files.get(program, program)
    return files


def text_of_program(one: Sender, program: str) -> str:
    """The text of a program's file; where there is none, the error says what was looked for."""
    try:
        return read_text(program)
    except CcpError as error:
        if is_name(program):
            more = "no --portus has the name %s, and there is no such file" % program
            raise CcpError("the sender %s: %s" % (one.label, more if "No such file" in str(error) else error)) from None
        raise


# ---- --set

Settings = Sequence[Tuple[str, List[int]]]


def setting(text: str) -> Tuple[str, List[int]]:
    """A parser of NAME=LIST, numbers of a control variable."""
    name, is_there, values = text.partition("=")
    if not is_there or not is_name(name):
        raise argparse.ArgumentTypeError("%s isn't NAME=1,2,4 with the name of a control variable" % shown(text))
    return name, ranges(whole(0, controls.MOST))(values)


def add_set(parser: argparse._ActionsContainer) -> None:
    """Adds --set NAME=LIST, as the list `arguments.set` of names with numbers."""
    what = "numbers of a control variable of the senders' own programs, a sender each (again for another one)"
    parser.add_argument("--set", type=setting, action="append", default=[], metavar="NAME=LIST", help=what)


def with_settings(found: Sequence[Sender], portus: Sequence[Tuple[str, str]], settings: Settings) -> List[List[Sender]]:
    """For each sender those that take its place: itself, or where its programs declare control variables of the
    settings, one for each choice of their numbers, labelled by it. A variable that no sender's program declares is a
    CcpError."""
    names = [name for name, _ in settings]
    twice = next((name for name in names if names.count(name) > 1), None)
    if twice:
        raise UsageError("--set: %s is there twice; its numbers have commas between, as %s=1,2" % (twice, twice))
    declared = {one.label: declared_by(one, dict(portus)) for one in found}
    for name in names:
        if not any(name in those for those in declared.values()):
            there = "; ".join("%s has %s" % (label, ", ".join(those)) for label, those in declared.items() if those)
            raise CcpError("--set %s: no sender's own program declares it: %s" % (name, cut(there) or "there is none"))
    made = []
    for one in found:
        own = [(name, values) for name, values in settings if name in declared[one.label]]
        made.append(list(variants(one, own)) if own else [one])
    check_labels([one for some in made for one in some])
    return made


def variants(one: Sender, settings: Settings) -> Iterator[Sender]:
    """A sender for each choice of numbers. A label that gets too long loses the end of the sender's own."""
    for values in product(*(values for _, values in settings)):
        numbers = tuple(zip((name for name, _ in settings), values))
        ending = "".join("-%s%d" % pair for pair in numbers)
        room = LIMITS["scene_name_bytes"] - len(ending) - (0 if one.slow == one.avoid else len(".ss"))
        if room < 1:
            raise CcpError("--set: the name of a program would end with %s, which is too long" % ending)
        yield replace(one, label=one.label[:room] + ending, numbers=numbers)


def declared_by(one: Sender, portus: Dict[str, str]) -> List[str]:
    """The control variables that a sender's own programs declare."""
    texts = [text_of_program(one, portus.get(name, name)) for name in one.programs()]
    return list(dict.fromkeys(name for text in texts for name in controls.declarations(text)))


def with_numbers(one: Sender, text: str) -> str:
    """A text of a sender's programs with its numbers, as far as the text declares them."""
    declared = controls.declarations(text)
    numbers = {name: value for name, value in one.numbers if name in declared}
    for name in numbers:
        controls.number_of(text, name, "the sender %s" % one.label)
    return controls.with_numbers(text, numbers)
