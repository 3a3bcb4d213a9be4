"""What a compare.toml may have run: nothing, unless --trust stands on the command line."""
from __future__ import annotations

from pathlib import Path

import pytest
from inside import run_inside
from support import TRACES, needs, require, script

pytestmark = needs("import matplotlib", "import pandas", "import jinja2")
require("matplotlib")

AGENT = """open(%r, "w").close()
from ccp_tools.drive import Agent


class Mine(Agent):
    programs = {"x": "(def (Report (n 0)))(when true (report))"}
"""


@pytest.fixture
def room(tmp_path: Path, program: Path) -> Path:
    """A folder with a program and an agent that leave a file where they run."""
    script(tmp_path, "prog", 'touch "%s/ran-prog"\nexec "%s" "$@"\n' % (tmp_path, program))
    (tmp_path / "agent.py").write_text(AGENT % str(tmp_path / "ran-agent"))
    return tmp_path


def file_with(room: Path, line: str, senders: str = '"reno"') -> Path:
    path = room / "compare.toml"
    path.write_text('traces = ["%s"]\nsenders = [%s]\nseconds = 0.1\n%s\n' % (TRACES[0], senders, line))
    return path


def ran(room: Path) -> set[str]:
    return {path.name for path in room.glob("ran-*")} | {path.name for path in room.glob("out")}


WRONG = [
    ('ccp = "{room}/prog"', "", "ccp: it runs {room}/prog"),
    ('program = "{room}/prog"', "", "ccp: it runs {room}/prog"),
    ('"ccp={room}/prog" = true', "", "ccp: it runs {room}/prog"),
    ('out = "{room}/out"', "", "out: it writes to {room}/out"),
    ("", "{room}/agent.py", "senders: it runs {room}/agent.py"),
    ("", "a={room}/agent.py", "senders: it runs {room}/agent.py"),
]


# what stands beside a file replaces the file's
BESIDE = [
    (*wrong, words)
    for wrong in WRONG
    for words in (["--dry-run"], ["--out", "{room}/other"])
    if "--out" not in words or not wrong[0].startswith("out")
]


@pytest.mark.parametrize("line, sender, error, words", BESIDE)
def test_a_file_runs_and_writes_nothing(room: Path, line: str, sender: str, error: str, words: list[str]) -> None:
    path = file_with(room, line.format(room=room), '"reno", "%s"' % sender.format(room=room) if sender else '"reno"')
    made = run_inside("compare", path, *(word.format(room=room) for word in words))
    assert made.status == 1 and made.output == "" and "Traceback" not in made.errors
    assert made.errors.endswith(
        "ccp compare: %s: %s: --trust accepts that, if you trust the file\n" % (path, error.format(room=room))
    ), made.errors
    assert not ran(room)


def test_the_file_does_not_trust_itself(room: Path) -> None:
    path = file_with(room, 'trust = true\nccp = "%s/prog"' % room)
    made = run_inside("compare", path, "--dry-run")
    assert made.status == 1 and "trust: the command line alone says" in made.errors and not ran(room)


def test_a_dry_run_that_is_trusted_loads_no_agent(room: Path) -> None:
    path = file_with(room, 'ccp = "%s/prog"' % room, '"reno", "%s/agent.py"' % room)
    made = run_inside("compare", path, "--dry-run", "--trust", "--quiet")
    assert made.status == 0 and made.output.startswith("cases=2\n"), made.errors
    assert ran(room) == {"ran-prog"}
    made = run_inside("compare", TRACES[0], "--senders", "m=%s/none.py" % room, "--dry-run")
    assert made.status == 1 and "the sender m: %s/none.py: No such file" % room in made.errors


def test_what_stands_beside_the_file_needs_no_trust(room: Path, program: Path) -> None:
    path = file_with(room, 'ccp = "%s/prog"\nout = "%s/out"' % (room, room), '"%s/agent.py"' % room)
    words = ["--ccp", program, "--out", room / "other", "--senders", "reno", "--dry-run", "--quiet"]
    assert run_inside("compare", path, *words).status == 0 and not ran(room)


def test_traces_are_a_list(room: Path) -> None:
    path = room / "compare.toml"
    path.write_text('traces = 7\nsenders = ["reno"]\n')
    made = run_inside("compare", path, "--out", room / "out")
    assert made.status == 1
    assert made.errors == "ccp compare: %s: traces: a list of files is expected\n" % path
