"""Hostile inputs by chance: whatever a command is given, and however it is stopped, it ends with a line for its user.

A failure names its case: CCP_HOSTILE_SEED=SEED runs the same ones again, and CCP_HOSTILE_COUNT=N runs N times as
many."""
from __future__ import annotations

import os
import random
import re
import signal
import subprocess
import sys
import tempfile
import time
import traceback
from pathlib import Path
from typing import List

import pytest
from hostile_inputs import Case, KINDS, STATUSES, case_of, judge, new_names, texts
from inside import run_inside
from support import EXAMPLES, TRACES, Ran, environment, require

require("pandas")
require("matplotlib")
from ccp_tools.drive.__main__ import main as drive_main  # noqa: E402

SEED = int(os.environ.get("CCP_HOSTILE_SEED", "1"))
TIMES = int(os.environ.get("CCP_HOSTILE_COUNT", "1"))
# cases of each kind
COUNTS = {"texts": 40, "names": 50, "toml": 30, "agents": 60, "sources": 60, "packed": 10}
# statuses of a command that a signal ends, also before it has said what is to be done then
STOPPED = (130, 143, 129, -signal.SIGINT, -signal.SIGTERM, -signal.SIGHUP)


def test_each_kind_has_a_count() -> None:
    assert set(COUNTS) == set(KINDS)


def run_case(case: Case, program: Path) -> Ran:
    """Runs a case in this process, in its folder."""
    try:
        if case.words[0] == "drive":
            return run_inside(*case.words[1:], "--ccp", program, "--timeout", "60", main=drive_main)
        return run_inside(*case.words)
    except Exception:
        return Ran("", traceback.format_exc(), 1)


@pytest.mark.parametrize("kind", KINDS)
def test_hostile_inputs(program: Path, tmp_path: Path, monkeypatch: pytest.MonkeyPatch, kind: str) -> None:
    temporary = tmp_path / "temporary"
    temporary.mkdir()
    monkeypatch.setattr(tempfile, "tempdir", str(temporary))
    wrong: List[str] = []
    for number in range(COUNTS[kind] * TIMES):
        case, folder = case_of(kind, SEED, number), tmp_path / str(number)
        folder.mkdir()
        case.write(folder)
        monkeypatch.chdir(folder)
        made = run_case(case, program)
        found = judge(case, made, [*new_names(folder, case), *os.listdir(temporary)])
        if found:
            what = "case_of(%r, %d, %d), %r" % (kind, SEED, number, case.words)
            wrong.append("%s: %s\n%s" % (what, found, made.errors[-600:]))
    assert not wrong, "\n".join(wrong)


# ---- commands that are stopped, and disks that are full

COMPARE = ["compare", str(TRACES[0]), "--senders", "reno,cubic", "--seconds", "1", "--out", "out"]
DRIVE = [str(EXAMPLES / "agents" / "aimd.py"), str(EXAMPLES / "drive.json"), "--record", "run.drive"]
MODULES = {"compare": "ccp_tools.cli", "drive": "ccp_tools.drive.__main__"}
# an interrupt before this line is one of Python's own start
READY = "import sys; from %s import main; print('ready', flush=True); sys.exit(main(sys.argv[1:]))"


def is_gone(group: int) -> bool:
    """Whether no process of a group is left, now or soon."""
    for _ in range(100):
        try:
            os.killpg(group, 0)
        except ProcessLookupError:
            return True
        time.sleep(0.02)
    return False


@pytest.mark.parametrize("name", MODULES)
@pytest.mark.parametrize("number", range(3 * TIMES))
def test_signals_at_random_moments(program: Path, tmp_path: Path, name: str, number: int) -> None:
    """To the process alone: it ends with all that it has begun, and without a traceback."""
    draw = random.Random("signal %d %d" % (SEED, number))
    sent, after_s = draw.choice([signal.SIGINT, signal.SIGTERM, signal.SIGHUP]), draw.uniform(0.02, 0.5)
    words = [sys.executable, "-c", READY % MODULES[name], *(COMPARE if name == "compare" else DRIVE)]
    pipes = {"stdout": subprocess.PIPE, "stderr": subprocess.PIPE, "env": environment(CCP_PROGRAM=str(program))}
    with subprocess.Popen(words, cwd=tmp_path, start_new_session=True, **pipes) as run:  # type: ignore[call-overload]
        assert run.stdout.readline() == b"ready\n"
        time.sleep(after_s)
        run.send_signal(sent)
        _, errors = run.communicate(timeout=60)
    what = "%s after %.3f s: status %d, %s" % (sent.name, after_s, run.returncode, errors.decode()[-600:])
    assert run.returncode in (0, *STOPPED) and b"Traceback" not in errors, what
    assert is_gone(run.pid), what


DISKS = {
    "compare": ["-m", "ccp_tools", *COMPARE],
    "drive": ["-m", "ccp_tools.drive", *DRIVE],
    "plot": ["-m", "ccp_tools", "plot", "cdf", "--scenario", "live", "acks", "x.svg"],
    "metrics": ["-m", "ccp_tools", "metrics", "live", "acks", "timeline", "--out", "x.csv"],
    "scenario": ["-m", "ccp_tools", "scenario", str(TRACES[0])],
}


@pytest.mark.parametrize("name, number", [(name, number) for name in DISKS for number in range(TIMES)])
def test_full_disks(program: Path, tmp_path: Path, name: str, number: int) -> None:
    """No file may have more than some KiB: one line says so, or all fits. What `compare` leaves in its folder is the
    matter of its own tests."""
    draw = random.Random("disk %s %d %d" % (name, SEED, number))
    for mode in ("live", "timeline", "acks"):
        (tmp_path / mode).write_text(texts()[mode], encoding="utf-8")
    limit = draw.choice([0, 0, 1, 4, 32])
    line = 'ulimit -f %d; exec "$@" > output 2> >(cat >&2)' % limit
    words = ["bash", "-c", line, "bash", sys.executable, *DISKS[name]]
    env = environment(CCP_PROGRAM=str(program))
    made = subprocess.run(words, cwd=tmp_path, capture_output=True, env=env, timeout=100)
    errors = made.stderr.decode("utf-8", "replace")
    what = "a limit of %d KiB: status %d, %s" % (limit, made.returncode, errors[-600:])
    assert "Traceback" not in errors and "Exception ignored" not in errors and made.returncode in STATUSES, what
    reasons = [one for one in errors.splitlines() if re.match("(ccp %s|drive): .*File too large" % name, one)]
    assert len(reasons) == (1 if made.returncode else 0), what
