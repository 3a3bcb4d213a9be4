"""Drives the flows of a scenario by an agent of a Python file, and prints the table of the run.

    python3 -m ccp_tools.drive AGENT.py SCENARIO [--record FILE] [--print MODE] [--ccp PATH] [--timeout S]

AGENT.py has a class that is a ccp_tools.drive.Agent. SCENARIO is a file, or - for standard input; the agent's own
programs are added to it. FILE gets the recording, from which `ccp drive-table FILE` and its kin work the run out again.

Exit status: 0; that of the program, as 3 where the scenario is refused; 1 where the agent or a file is wrong; 2 wrong
arguments."""
from __future__ import annotations

import argparse
import os
import sys
from typing import Sequence

from ..arguments import Parser, add_ccp, shown
from ..cli import run_guarded
from ..errors import CcpError, UsageError
from ..files import name_of, read_bytes
from .agents import run_file
from .pipes import LONGEST_TIMEOUT

TEXTS = {"table": "drive-table", "timeline": "drive-timeline", "acks": "drive-acks"}


def parser() -> argparse.ArgumentParser:
    """The parser of the arguments."""
    made = Parser(prog="python3 -m ccp_tools.drive", description=__doc__)
    made.add_argument("agent", metavar="AGENT.py", help="the file with the agent's class")
    made.add_argument("scenario", metavar="SCENARIO", help="the scenario's file; - is standard input")
    made.add_argument("--record", metavar="FILE", help="the file that gets the recording")
    made.add_argument("--print", dest="shown", choices=TEXTS, default="table", help="the text to print (table)")
    made.add_argument("--timeout", type=seconds, metavar="S", help="the seconds for which the program may be silent")
    add_ccp(made)
    return made


def seconds(text: str) -> float:
    """Seconds above 0, as a timeout has them."""
    try:
        value = float(text)
    except ValueError:
        value = 0
    if not 0 < value <= LONGEST_TIMEOUT:
        what = "%s isn't a number of seconds above 0 and at most %d" % (shown(text), LONGEST_TIMEOUT)
        raise argparse.ArgumentTypeError(what)
    return value


def main(words: Sequence[str]) -> int:
    """Runs the command, and returns its exit status."""
    return run_guarded("drive", lambda: run(words))


def run(words: Sequence[str]) -> int:
    """Drives the flows, and prints the text that is asked for."""
    try:
        asked = parser().parse_args(words)
    except SystemExit as done:  # --help
        return int(done.code or 0)
    for given in (asked.agent, asked.scenario):
        if asked.record and is_same_file(asked.record, given):
            raise UsageError("--record %s: the recording would overwrite what the run reads" % name_of(asked.record))
    options = {"program": asked.ccp, "record": asked.record, "timeout": asked.timeout}
    output = sys.stdout
    made = run_file(asked.agent, read_bytes(asked.scenario), **options)
    # an agent may have closed the output, or put something else in its place
    if output.closed:
        sys.stdout = open(os.devnull, "w", encoding="utf-8")
        raise CcpError("the output can't be written: the agent has closed it")
    sys.stdout = output
    output.write(made.text(TEXTS[asked.shown]))
    return 0


def is_same_file(one: str, other: str) -> bool:
    """Whether two paths are of one regular file."""
    return os.path.isfile(one) and os.path.isfile(other) and os.path.samefile(one, other)


if __name__ == "__main__":
    sys.exit(main(sys.argv[1:]))
