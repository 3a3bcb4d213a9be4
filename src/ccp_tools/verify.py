"""Checks whether a text is a live text of a scenario, and shows the first line that differs.

    ccp verify SCENARIO TEXT

One of the two may be -, which is standard input. The verdict is that of `ccp audit`:

    $ ./ccp verify examples/live.json run.txt
    yes
    $ ./ccp verify examples/live.json changed.txt
    no flow 0
    changed.txt:5: this line differs from what the flow's own word gives, in acked=1448
      here      ticket 1 report program=0 .. acked=1448 ..
      expected  ticket 1 report program=0 .. acked=2896 ..

A flow's word is how often and when its tickets were taken and answered, which its lines say. The line that is
expected is what the reference model makes of the scenario over that word, and it is shown only where `ccp audit` says
yes to it.

Lines `install ..` at the start, which --wire prints, are left out of the text. A scenario without a line end at its
end is accepted, and so is a text with CR LF as line ends, or without the last line end.

Exit status: 0 yes; 1 no; 2 there is no verdict, as for wrong arguments or a scenario that is refused."""
from __future__ import annotations

import argparse
import json
import re
from pathlib import Path
from typing import Iterator, List, Sequence, Tuple

from .arguments import add_ccp
from .errors import CcpError, UsageError
from .files import name_of, read_bytes
from .program import find_program
from .reference.flow import Flow, Programs, forced
from .reference.judging import Refused, judged


class Printed:
    """A text in lines, without lines `install ..` at the start. `first` is the number of its first line in the file."""

    def __init__(self, name: str, data: bytes) -> None:
        self.name = name
        lines = data.decode("utf-8", "surrogateescape").replace("\r\n", "\n").split("\n")
        if lines[-1] == "":
            lines.pop()
        left_out = 0
        while left_out < len(lines) and re.fullmatch("install [0-9]+ [0-9a-f]+", lines[left_out]):
            left_out += 1
        self.lines = lines[left_out:]
        self.first = left_out + 1

    def part(self, number: int) -> Tuple[int, int]:
        """Where the lines of a flow begin, after those of the flows before, and where they end."""
        begin = 0
        for _ in range(number):
            begin = self.end_of(begin)
        return begin, self.end_of(begin)

    def end_of(self, begin: int) -> int:
        """Where the flow ends whose lines begin here."""
        for at in range(begin, len(self.lines)):
            if self.lines[at].startswith("end "):
                return at + 1
        return len(self.lines)


def data_of(lines: Sequence[str]) -> bytes:
    """The bytes of lines."""
    return "".join(line + "\n" for line in lines).encode("utf-8", "surrogateescape")


def tickets_of(lines: Sequence[str]) -> Iterator[Tuple[int, Tuple[int, int]]]:
    """The lines of tickets: where each is, and at how many acknowledgements it was taken and answered."""
    for at, line in enumerate(lines):
        found = re.match(r"ticket .*? taken=([0-9]{1,9}) answered=([0-9]{1,9}) ", line)
        if found:
            yield at, (int(found.group(1)), int(found.group(2)))


def difference(program: Path, data: bytes, printed: Printed, number: int) -> List[str]:
    """The lines that say where the part of a flow differs."""
    scenario = json.loads(data)
    begin, end = printed.part(number)
    here = printed.lines[begin:end]
    if number == len(scenario["cases"]):
        return at_line(printed, begin, "the text goes on after its last flow", printed.lines[begin])
    flow = Flow(number, scenario["cases"][number], scenario["traces"], Programs(scenario))
    if not here:
        return ["%s: the text ends before flow %d" % (printed.name, number)]
    if here[0] != flow.head():
        return at_line(printed, begin, "another line begins flow %d" % number, here[0], flow.head())
    tickets = list(tickets_of(here))
    wrong = forced(flow, [counts for _, counts in tickets])
    if wrong:
        at = tickets[wrong[0]][0]
        what = "this ticket can't be taken and answered at its counts: %s" % wrong[1]
        return at_line(printed, begin + at, what, here[at])
    wanted = flow.lines()
    verdict = judged(program, data, data_of(printed.lines[:begin] + wanted))
    if verdict is not None and verdict <= number:
        place = (printed.name, number, printed.first + begin)
        return ["%s: the lines of flow %d begin at line %d; which of them differs isn't known" % place]
    return first_difference(printed, begin, here, wanted)


def first_difference(printed: Printed, begin: int, here: Sequence[str], wanted: Sequence[str]) -> List[str]:
    """The first line of a flow that isn't the one that is expected."""
    for at, (line, other) in enumerate(zip(here, wanted)):
        if line != other:
            what = "this line differs from what the flow's own word gives" + part_of(line, other)
            return at_line(printed, begin + at, what, line, other)
    if len(here) < len(wanted):
        return ["%s: the text ends before this line" % printed.name, "  expected  " + wanted[len(here)]]
    return at_line(printed, begin + len(wanted), "the flow ends before this line", here[len(wanted)])


def part_of(line: str, other: str) -> str:
    """The first part in which two lines of one form differ."""
    parts, others = line.split(" "), other.split(" ")
    found = [part for part, wanted in zip(parts, others) if part != wanted]
    return ", in %s" % found[0] if found and len(parts) == len(others) and parts[0] == others[0] else ""


def at_line(printed: Printed, at: int, what: str, line: str, wanted: str | None = None) -> List[str]:
    """What is wrong with a line, with the one that is expected."""
    lines = ["%s:%d: %s" % (printed.name, printed.first + at, what), "  here      " + line]
    return lines + (["  expected  " + wanted] if wanted is not None else [])


def add_arguments(parser: argparse.ArgumentParser) -> None:
    """Adds the arguments of `ccp verify`."""
    add_ccp(parser)
    parser.add_argument("scenario", metavar="SCENARIO", help="the scenario that `live` or `timeline` ran")
    parser.add_argument("text", metavar="TEXT", help="what it printed")


def run(arguments: argparse.Namespace) -> int:
    """Prints the verdict, and where the text differs."""
    if arguments.scenario == arguments.text == "-":
        raise UsageError("only one of SCENARIO and TEXT can be standard input")
    try:
        data = read_bytes(arguments.scenario)
        printed = Printed(name_of(arguments.text), read_bytes(arguments.text))
        program = find_program(arguments.ccp)
        number = judged(program, data, data_of(printed.lines))
    except Refused as error:
        explain = "ccp explain --for live %s says more" % arguments.scenario
        raise UsageError("%s: %s; %s" % (name_of(arguments.scenario), error, explain)) from None
    except CcpError as error:
        raise CcpError(str(error), 2) from None
    if number is None:
        print("yes")
        return 0
    print("no flow %d" % number)
    for line in difference(program, data, printed, number):
        print(line.encode("utf-8", "replace").decode("utf-8"))
    return 1
