"""Asks the program whether a text is a live text of a scenario."""
from __future__ import annotations

import re
from pathlib import Path
from typing import Optional, Union

from .. import program as programs
from ..errors import CcpError, NoProgram


class Refused(CcpError):
    """The scenario is refused, or the input is too long, with the program's line."""

    status = 2


def judged(program: Union[str, Path, None], scenario: bytes, text: bytes) -> Optional[int]:
    """None where the program says yes, else the number of the flow that it names."""
    data = scenario + (b"" if scenario.endswith(b"\n") else b"\n") + b"---\n" + text
    ran = programs.run("audit", data, program=program, check=False)
    if ran.status == 3:
        raise Refused(ran.errors.strip())
    found = re.fullmatch(r"yes\n|no flow ([0-9]+)\n", ran.output)
    if ran.status or not found:
        raise NoProgram("%s audit ended with status %d: %s" % (program, ran.status, ran.errors.strip()), 2)
    return int(found.group(1)) if found.group(1) else None
