"""Runs a command of the package in the tests' own process, which takes a hundredth of the time of a new one."""
from __future__ import annotations

import io
import sys
from typing import Callable, Sequence

import pytest
from support import Ran

from ccp_tools import cli


def run_inside(
    *words: object, given: str | bytes | None = None, main: Callable[[Sequence[str]], int] = cli.main
) -> Ran:
    """Runs `ccp WORDS ..`, or another command by its `main`, with an input, and returns what it prints."""
    data = given.encode("utf-8", "surrogateescape") if isinstance(given, str) else given or b""
    output, errors = io.BytesIO(), io.StringIO()
    with pytest.MonkeyPatch.context() as patch:
        patch.setattr(sys, "stdin", io.TextIOWrapper(io.BufferedReader(io.BytesIO(data)), encoding="utf-8"))
        patch.setattr(sys, "stdout", io.TextIOWrapper(output, encoding="utf-8", errors="surrogateescape"))
        patch.setattr(sys, "stderr", errors)
        status = main([str(word) for word in words])
        sys.stdout.flush()
        # before the stream goes, which closes it
        printed = output.getvalue()
    return Ran(printed.decode("utf-8", "surrogateescape"), errors.getvalue(), status)
