"""Interrupts: whatever ends a command ends what it has begun."""
from __future__ import annotations

import signal
import subprocess

import pytest
import support  # noqa: F401

from ccp_tools.interrupts import Ended, caught_signals, run_process


def test_a_signal_while_a_process_begins_ends_it(monkeypatch):
    begun = []

    class Interrupted(subprocess.Popen):
        """A process that is begun at the moment of a signal."""

        def __init__(self, *words, **options):
            super().__init__(*words, **options)
            begun.append(self)
            signal.raise_signal(signal.SIGTERM)

    monkeypatch.setattr(subprocess, "Popen", Interrupted)
    with caught_signals(), pytest.raises(Ended):
        run_process(["sleep", "100"])
    assert [process.returncode for process in begun] == [-signal.SIGKILL]
