"""The command `ccp explain`: what is said of an input, and how it is printed."""
from __future__ import annotations

import argparse
from pathlib import Path
from typing import List, Optional, Tuple

from ..arguments import add_ccp
from ..errors import CcpError
from ..files import name_of, read_bytes
from ..program import find_program
from ..tables import LIMITS, MODES
from . import asking, driven, folds, program_refusals, program_warnings, scenario_refusals, scenario_warnings
from .findings import Finding, Text, hints_of_file, looks_like_trace, printed
from .scenarios import Scenario

SCENARIOS = [name for name, mode in MODES.items() if mode.cases]
ASKED = [name for name, mode in MODES.items() if mode.kind not in ("feed", "nothing")]


class Given:
    """An input: its name, its bytes, and its text. A byte that isn't UTF-8 is a half surrogate in `text`; `latin` has
    one character a byte."""

    def __init__(self, name: str, data: bytes) -> None:
        self.name = name
        self.data = data
        self.text = data.decode("utf-8", "surrogateescape")
        self.latin = data.decode("latin-1")


def mode_of(given: Given) -> str:
    """The mode that an input looks like one of."""
    begins = given.text.lstrip("\ufeff \t\r\n")[:1]
    separated = folds.separator_in(given.data) is not None or folds.has_near_separator(given.text)
    if begins in ("{", "[") or '"cases"' in given.text and begins != "(":
        if driven.looks_driven(given.data):
            return "drive"
        return "audit" if separated else Scenario(given.name, given.text).mode()
    if separated or folds.has_ack_lines(given.text):
        return "fold"
    return "campaign" if given.name.endswith(".json") else "check"


# ---- refusals


def too_long(given: Given, mode: str, reason: str) -> Finding:
    """The finding of an input that is too long."""
    limit = int(reason.split()[2])
    is_of_scenario = limit == LIMITS["input_bytes"]
    separated = separated_in(given, mode)
    if separated and is_of_scenario:
        hints = ["Before the line `---` are %d bytes, and at most %d are taken." % (separated[0], limit)]
    else:
        hints = ["The input has %d bytes, and at most %d are taken." % (len(given.data), limit)]
        if is_of_scenario and MODES[mode].kind == "drive":
            hints.append("No line `---` is in it, which ends the scenario.")
    if looks_like_trace(given.text):
        hints.append(
            "This looks like a trace: a scenario holds it in its member `traces`. `ccp trace cut` shortens it."
        )
    elif is_scenario(mode) and is_of_scenario:
        option = scenario_refusals.SPLIT.get(mode)
        over = "; `ccp over%s` runs it in parts" % option if option is not None else ""
        hints.append("Shorten the traces or take fewer cases%s." % over)
    front = given.data[: separated[0]] if separated else given.data
    return Finding("refused", 0, 0, reason, hints_of_file(front) + hints)


def in_bytes(given: Given, found: Finding) -> Finding:
    """A finding at places of the bytes as one at places of the text."""
    for name in ("start", "end"):
        at = given.data[: getattr(found, name)].decode("utf-8", "surrogateescape")
        setattr(found, name, len(at))
    return found


def refusal_of(given: Given, mode: str, reason: str) -> Tuple[Text, Finding]:
    """The text and the finding of what the program refuses."""
    text = Text(given.name, given.text)
    if reason.startswith("more than "):
        return text, too_long(given, mode, reason)
    if reason == "no separator":
        return text, folds.no_separator(given.text, reason)
    if reason.startswith("acknowledgement line "):
        return text, in_bytes(given, folds.line_refusal(given.latin, int(reason.split()[2]), reason))
    if reason.startswith("frame "):
        return text, in_bytes(given, driven.frame_refusal(given.data, reason))
    if reason == "too many acknowledgements":
        return text, in_bytes(given, folds.too_many(given.latin, reason))
    if MODES[mode].kind in ("program", "fold") and reason.startswith("program "):
        found = program_refusals.refusal_of(program_in(given, mode), reason[len("program ") :])
        found.what = reason
        return text, in_bytes(given, found)
    scenario = scenario_in(given, mode)
    return scenario.text, scenario_refusals.refusal_of(scenario, mode, reason)


def separated_in(given: Given, mode: str) -> Optional[Tuple[int, int]]:
    """Where the line `---` of an input of a mode begins, and where the next line does; None where it has none."""
    kind = MODES[mode].kind
    if kind == "drive":
        return driven.separator_in(given.data)
    return folds.separator_in(given.data) if kind in ("fold", "audit") else None


def is_scenario(mode: str) -> bool:
    """Whether a mode reads a scenario, alone or before a line `---`."""
    return MODES[mode].kind not in ("program", "fold")


def program_in(given: Given, mode: str) -> str:
    """The program's text of an input, one character a byte; in `fold` it is what is before the separator."""
    separated = separated_in(given, mode)
    return given.latin[: separated[0]] if separated else given.latin


def scenario_in(given: Given, mode: str) -> Scenario:
    """The scenario of an input; in `audit` and the modes of `drive` it is what is before the separator."""
    separated = separated_in(given, mode)
    data = given.data[: separated[0]] if separated else given.data
    return Scenario(given.name, data.decode("utf-8", "surrogateescape"))


# ---- what is accepted


def remarks_on_program(given: Given, mode: str, output: str) -> List[Finding]:
    """The warnings of an accepted program, and the fault that it met in `fold`."""
    source = program_in(given, mode)
    text = source.encode("latin-1").decode("utf-8", "surrogateescape")
    found = [
        Finding("warning", one.start, one.end, one.text, list(one.hints)) for one in program_warnings.warnings_of(text)
    ]
    separated = separated_in(given, mode)
    fault = folds.fault_of(source, given.latin[separated[1] :], output) if separated else None
    return [in_bytes(given, one) for one in ([fault] if fault else []) + found]


def explained(program: Optional[Path], given: Given, mode: str) -> Tuple[bool, Text, List[Finding]]:
    """Whether the program refuses an input, the text, and what is found in it."""
    reason, output = asking.refusal_of(program, mode, given.data)
    if reason is not None:
        text, found = refusal_of(given, mode, reason)
        more = scenario_warnings.warnings_of(scenario_in(given, mode), mode, False) if is_scenario(mode) else []
        return True, text, [found, *more]
    if not is_scenario(mode):
        return False, Text(given.name, given.text), remarks_on_program(given, mode, output)
    scenario = scenario_in(given, mode)
    return False, scenario.text, scenario_warnings.warnings_of(scenario, mode)


def lines_of(program: Optional[Path], given: Given, mode: str, is_quiet: bool) -> Tuple[int, List[str]]:
    """The exit status and the lines that are printed of an input."""
    refused, text, found = explained(program, given, mode)
    shown = [one for one in found if one.level != "warning" or not is_quiet]
    lines = [line for one in shown for line in printed(text, one)]
    faults = sum(one.level == "fault" for one in shown)
    count = len(shown) - refused - faults
    verdict = "%s by %s" % ("refused" if refused else "accepted", mode) + (", with a fault" if faults else "")
    warned = ", %d warning%s" % (count, "" if count == 1 else "s") if count else ""
    return int(refused), lines + ["ccp explain: %s%s" % (verdict, warned)]


def add_arguments(parser: argparse.ArgumentParser) -> None:
    """Adds the arguments of `ccp explain`."""
    modes = ", ".join(ASKED)
    parser.add_argument("--for", dest="mode", choices=ASKED, metavar="MODE", help="the mode to ask: %s" % modes)
    add_ccp(parser)
    parser.add_argument("file", nargs="?", default="-", metavar="FILE", help="the input; standard input without it")


TRACE = (
    "%s: this is a trace, and no input of ccp itself: `ccp compare %s --senders linux-reno,linux-cubic --out DIR` runs"
    " senders over it, and `ccp trace info %s` shows it"
)


def run(arguments: argparse.Namespace) -> int:
    """Explains an input. Returns 0 where it is accepted and 1 where it is refused; an input that can't be read, and no
    program to ask, are a CcpError of status 2."""
    try:
        given = Given(name_of(arguments.file), read_bytes(arguments.file))
        if looks_like_trace(given.text) and arguments.mode is None:
            raise CcpError(TRACE % ((given.name,) + (arguments.file,) * 2))
        program = find_program(arguments.ccp)
        status, lines = lines_of(program, given, arguments.mode or mode_of(given), arguments.quiet)
    except CcpError as error:
        raise CcpError(str(error), 2) from None
    print("\n".join(lines).encode("utf-8", "replace").decode("utf-8"))
    return status
