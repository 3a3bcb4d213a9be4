"""Commands that begin with the libraries are as those of a new process."""
from __future__ import annotations

import os
import subprocess
import sys
from pathlib import Path
from typing import List

import pytest
from support import TRACES, command, ran


@pytest.mark.parametrize(
    "words",
    [["--version"], ["table"], ["table", "-"], ["compare", "--no-such"], ["trace", "info", "-"], ["no-such-command"]],
    ids=" ".join,
)
def test_what_a_command_prints(words: List[str]) -> None:
    for given in ("", TRACES[0].read_text(encoding="utf-8")):
        assert command(*words, given=given) == ran([sys.executable, "-m", "ccp_tools", *words], given)


def test_the_folder_and_the_environment_are_those_of_the_test(tmp_path: Path, monkeypatch: pytest.MonkeyPatch) -> None:
    (tmp_path / "own.trace").write_text("1\n2\n", encoding="utf-8")
    monkeypatch.chdir(tmp_path)
    monkeypatch.setenv("CCP_PROGRAM", "/no/such/program")
    assert command("trace", "info", "own.trace").status == 0
    assert "/no/such/program" in command("explain", given="(def)").errors


def test_a_command_that_takes_too_long_is_ended() -> None:
    reading, writing = os.pipe()
    path = "/proc/%d/fd/%d" % (os.getpid(), reading)
    with pytest.raises(subprocess.TimeoutExpired):
        command("table", path, timeout=0.5)
    os.close(writing)
    os.close(reading)
    assert command("--version").status == 0
