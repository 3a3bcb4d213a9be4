"""Whatever a command is given, it ends with a line for its user, and never with a traceback."""
from __future__ import annotations

import json
import os
import runpy
import shutil
import signal
import subprocess
import sys
from importlib import import_module
from pathlib import Path
from typing import Any, Dict, List

import pytest
from inside import run_inside
from support import EXAMPLES, REPOSITORY, ccp, command, ran

from ccp_tools.cli import main
from ccp_tools.errors import CcpError
from ccp_tools.files import read_bytes
from ccp_tools.tables import COMMANDS, MODES

FIXED = str(EXAMPLES / "traces" / "fixed.trace")
HUNT = ["--for", "losses", "--links", "2"]
TUNE = ["--numbers", "low=1..2,high=2..4", "--trials", "6", "--seconds", "0.5", "--out", "OUT", "--over"]
HELD_OUT = ["--held-out", str(EXAMPLES / "traces" / "wave.trace")]
# the arguments of a command that reads FILE; OUT is a folder that may be written
ARGUMENTS = {
    "compare": [
        ["FILE", "--senders", "reno", "--seconds", "1", "--out", "OUT"],
        [FIXED, "--senders", "reno", "--seconds", "1", "--measured", "FILE", "--out", "OUT"],
    ],
    "scenario": [["FILE"], ["--senders", "mine=FILE", FIXED]],
    "trace": [["info", "FILE"]],
    "metrics": [["FILE", "FILE"]],
    "plot": [[kind, "FILE", "OUT/x.svg"] for kind in ("table", "bars", "flows", "cdf", "shares")],
    "explain": [["FILE"], ["--for", "campaign", "FILE"]],
    "table": [["FILE"]],
    "verify": [["FILE", "FILE"], [str(EXAMPLES / "live.json"), "FILE"]],
    "over": [["FILE"]],
    "hunt": [
        ["mine=FILE", *HUNT],
        ["FILE", *HUNT],
        ["reno", *HUNT, "--trace", "FILE"],
        ["reno", *HUNT, "--against", "FILE"],
    ],
    "tune": [["FILE", *TUNE, FIXED], [str(EXAMPLES / "delay.portus"), *TUNE, "FILE"]],
}
CASES = [(name, words) for name, lists in ARGUMENTS.items() for words in lists]
CONTENTS = {
    "empty": b"",
    "binary": bytes(range(256)) * 64,
    "zeros": b"\0" * 4096,
    "utf-16": "flow 0 case=a agent=reno\n".encode("utf-16"),
    "latin-1": b"caf\xe9\n",
    "one long line": b"x" * (4 << 20),
    "deep": b"[" * 200_000,
    "digits": b"9" * 20_000,
    "one number": b"1\n",
}


def test_each_command_is_tried():
    assert set(ARGUMENTS) == set(COMMANDS)


def words_of(words: List[str], path: Path, folder: Path) -> List[str]:
    return [word.replace("FILE", str(path)).replace("OUT", str(folder)) for word in words]


def check(name: str, words: List[str], capsys: pytest.CaptureFixture[str]) -> None:
    """Runs a command in this process: no exception leaves it, and a refusal is one line that names the command."""
    status = main([name, *words])
    shown = capsys.readouterr()
    check_end(name, status, shown.out, shown.err)


def check_end(name: str, status: int, output: str, errors: str) -> None:
    assert "Traceback" not in errors, errors
    assert 0 <= status < 128, "%d: %s" % (status, errors)
    if status and errors and not output:
        lines = [line for line in errors.splitlines() if not line.startswith("ccp: warning: ")]
        assert lines[-1].startswith("ccp %s: " % name), errors


# a trace of one number is a trace, which is compared as in test_compare.py
HOSTILE = [
    (name, words, content)
    for name, words in CASES
    for content in CONTENTS
    if (name, words[0], content) != ("compare", "FILE", "one number")
]


@pytest.mark.parametrize("name, words, content", HOSTILE)
def test_a_file_of_anything(
    program: Path, tmp_path: Path, capsys: pytest.CaptureFixture[str], name: str, words: List[str], content: str
) -> None:
    path = tmp_path / "given"
    path.write_bytes(CONTENTS[content])
    check(name, words_of(words, path, tmp_path), capsys)


@pytest.mark.parametrize("name, words", CASES)
def test_a_folder_and_no_file(
    program: Path, tmp_path: Path, capsys: pytest.CaptureFixture[str], name: str, words: List[str]
) -> None:
    for path in (tmp_path, tmp_path / "none", Path("/dev/null"), tmp_path / ("x" * 300)):
        check(name, words_of(words, path, tmp_path), capsys)


@pytest.mark.parametrize("name, words", CASES)
def test_no_input(program: Path, tmp_path: Path, name: str, words: List[str]) -> None:
    made = command(name, *words_of(words, Path("-"), tmp_path), timeout=120)
    check_end(name, made.status, made.output, made.errors)


@pytest.mark.parametrize("name", COMMANDS)
def test_wrong_arguments_are_one_line_with_status_2(name: str) -> None:
    ran = command(name, "--no-such-option")
    assert (ran.output, ran.status) == ("", 2)
    assert ran.errors.startswith("ccp %s: " % name) and ran.errors.count("\n") == 1


@pytest.mark.parametrize("name", COMMANDS)
def test_help_and_version(name: str) -> None:
    ran = command(name, "--help")
    assert ran.status == 0 and not ran.errors and ran.output.startswith("usage: ccp %s " % name)
    version = (REPOSITORY / "VERSION").read_text().strip()
    assert command(name, "--version")[:] == ("ccp %s\n" % version, "", 0)


@pytest.mark.parametrize("name", COMMANDS)
def test_an_output_that_nobody_reads(name: str) -> None:
    reading, writing = os.pipe()
    os.close(reading)
    env = {**os.environ, "PYTHONPATH": str(REPOSITORY / "src")}
    words = [sys.executable, "-m", "ccp_tools", name, "--help"]
    ran = subprocess.run(words, stdout=writing, stderr=subprocess.PIPE, env=env, stdin=subprocess.DEVNULL)
    os.close(writing)
    assert (ran.returncode, ran.stderr) == (141, b"")


# what each command prints of real work; SCENARIO, TABLE and TIMELINE are files of one small run
WORK = {
    "compare": [FIXED, "--senders", "reno", "--seconds", "0.2", "--quiet", "--out", "OUT"],
    "scenario": [FIXED, "--senders", "reno"],
    "trace": ["info", FIXED],
    "metrics": ["SCENARIO", "TABLE", "TIMELINE"],
    "explain": ["SCENARIO"],
    "table": ["TABLE"],
    "verify": ["SCENARIO", "TIMELINE"],
    "over": ["--quiet", "SCENARIO"],
    "hunt": [str(EXAMPLES / "delay.portus"), "--assert", "loss_rate<=1", "--links", "3", "--quiet"],
    "tune": [
        str(EXAMPLES / "delay.portus"),
        "--goal",
        "wait",
        "--floor",
        "utilization>=0.1",
        "--quiet",
        *TUNE,
        FIXED,
        *HELD_OUT,
    ],
}


@pytest.fixture(scope="session")
def run_of(program: Path, tmp_path_factory: pytest.TempPathFactory) -> Dict[str, Path]:
    """The files of a run of one case."""
    folder = tmp_path_factory.mktemp("work")
    files = {name: folder / name.lower() for name in ("SCENARIO", "TABLE", "TIMELINE")}
    files["SCENARIO"].write_text(command("scenario", "--senders", "reno", "--acks", "200", FIXED).output)
    for name, mode in (("TABLE", "campaign"), ("TIMELINE", "timeline")):
        files[name].write_text(ccp(mode, given=files["SCENARIO"].read_text()).output)
    return files


def test_each_command_that_prints_has_work() -> None:
    assert set(WORK) == set(COMMANDS) - {"plot"}


@pytest.mark.parametrize("name", WORK)
def test_real_work_whose_output_nobody_reads(run_of: Dict[str, Path], tmp_path: Path, name: str) -> None:
    if name == "over" and not shutil.which("parallel"):
        pytest.skip("parallel isn't installed")
    words = [str(run_of.get(word, word)).replace("OUT", str(tmp_path / "out")) for word in WORK[name]]
    assert command(name, *words).status == 0
    reading, writing = os.pipe()
    os.close(reading)
    env = {**os.environ, "PYTHONPATH": str(REPOSITORY / "src")}
    started = [sys.executable, "-m", "ccp_tools", name, *words]
    ran = subprocess.run(started, stdout=writing, stderr=subprocess.PIPE, env=env, stdin=subprocess.DEVNULL)
    os.close(writing)
    assert (ran.returncode, ran.stderr) == (141, b"")


def test_a_file_without_an_end() -> None:
    with pytest.raises(CcpError, match="/dev/zero: it has more than 2000000 bytes"):
        read_bytes("/dev/zero", 2_000_000)
    assert read_bytes("/dev/null") == b""


@pytest.mark.parametrize("words", [["trace", "info", FIXED], ["table", "--help"], []], ids=str)
@pytest.mark.parametrize("stream, reason", [(">&-", "Bad file descriptor"), (">/dev/full", "No space left on device")])
def test_an_output_that_cannot_be_written(words: List[str], stream: str, reason: str) -> None:
    """It is named in one line, and the status isn't 0."""
    started = [sys.executable, "-m", "ccp_tools", *words]
    made = ran(["bash", "-c", '"$@" ' + stream, "bash", *started])
    name = " ".join(["ccp", *words[:1]])
    assert made == ("", "%s: the output can't be written: %s\n" % (name, reason), 1)


def test_an_error_that_cannot_be_written() -> None:
    made = ran(["bash", "-c", '"$@" 2>/dev/full', "bash", sys.executable, "-m", "ccp_tools", "table", "none"])
    assert made == ("", "", 1)


def test_names_in_messages(capsys: pytest.CaptureFixture[str]) -> None:
    """A message is one line, without the control characters of a name, and with its beginning and end."""
    for name, said in (
        ("a\nb\x1b[31m\r\x07", "a b\\x1b[31m \\x07: No such file or directory"),
        ("\u20ac" * 3000, "\u20ac" * 32 + " .. " + "\u20ac" * 32 + ": File name too long"),
        ("x " * 300, "x " * 49 + " .. " + "x " * 49 + ": File name too long"),
    ):
        assert main(["table", name]) == 1
        assert capsys.readouterr().err == "ccp table: %s\n" % said


def test_the_bench_of_failures_has_each_scenario_and_mode(program: Path) -> None:
    """bench/hostile, which isn't a part of the gate, leaves out no example and no mode that reads an input."""
    bench = runpy.run_path(str(REPOSITORY / "bench" / "hostile"))
    scenarios = {path.stem for path in EXAMPLES.glob("*.json")} - {"scenario.schema"}
    assert set(bench["MODES"]) == scenarios
    assert {example.mode for example in bench["examples"](str(program))} == set(MODES)


def test_an_interrupt_while_a_command_is_imported(monkeypatch: pytest.MonkeyPatch) -> None:
    """It waits until all is imported: libraries make other errors of it."""
    done = []

    def imported(*names: str) -> Any:
        signal.raise_signal(signal.SIGINT)
        done.append(names)
        return import_module(*names)

    monkeypatch.setattr("ccp_tools.cli.import_module", imported)
    assert main(["table", "none"]) == 130 and done == [(".table", "ccp_tools")]


def test_closed_streams() -> None:
    env = {**os.environ, "PYTHONPATH": str(REPOSITORY / "src")}
    for closed in ("<&-", ">&-", "2>&-", "<&- >&- 2>&-"):
        words = ["bash", "-c", '"$0" -m ccp_tools table %s' % closed, sys.executable]
        ran = subprocess.run(words, stdin=subprocess.DEVNULL, capture_output=True, env=env, timeout=60)
        assert b"Traceback" not in ran.stderr and ran.returncode == 1, ran.stderr


def test_interpreters_that_the_package_is_for() -> None:
    """Each Python that is installed, from 3.9 on, reads all modules that need no others."""
    versions = Path.home() / ".pyenv" / "versions"
    found = sorted(versions.glob("3.*/bin/python3")) if versions.is_dir() else []
    tried = 0
    for python in [Path("/usr/bin/python3"), *found]:
        ask = [str(python), "-c", "import sys; sys.exit(sys.version_info < (3, 9))"]
        if not python.exists() or subprocess.run(ask).returncode:
            continue
        env = {**os.environ, "PYTHONPATH": str(REPOSITORY / "src"), "PYTHONDONTWRITEBYTECODE": "1"}
        for command_ in COMMANDS.values():
            if not command_.modules:
                words = [str(python), "-m", "ccp_tools", command_.name, "--help"]
                ran = subprocess.run(words, capture_output=True, env=env)
                assert ran.returncode == 0, (python, command_.name, ran.stderr)
        tried += 1
    assert tried


# members of a scenario that `ccp` refuses, each with the path that is named
WRONG_MEMBERS = [
    ('"cases": [', '"others": [', "cases"),
    ('{"name": "a"', '3, {"name": "a"', "cases[0]"),
    ('"name": "a"', '"name": 7', "cases[0].name"),
    ('"mss": 1448', '"mss": "x"', "cases[0].mss"),
    ('"mss": 1448', '"mss": 1%s' % ("0" * 40), "cases[0].mss"),
    ('"delay_us"', '"delay"', "cases[0].delay_us"),
    ('"agent": "reno"', '"agent": "reno", "sender": 5', "cases[0].sender"),
    ('"10\\n"', "[10]", "traces"),
    ('"mss": 1448, ', "", "cases[0].mss"),
    ('"mss": 1448', '"mss": 1448, "losses": {"1": 2}', "cases[0].losses"),
    ('"mss": 1448', '"mss": 1448, "start_us": "x"', "cases[0].start_us"),
    ('"cases": [', '"shared": {"trace": "t", "rounds": 5, "quantum_us": {}}, "cases": [', "shared.quantum_us"),
    ('"cases": [', '"shared": {"rounds": 5, "quantum_us": 5}, "cases": [', "shared.trace"),
    ('"cases": [', '"shared": [1], "cases": [', "shared"),
]


CASE = dict(name="a", trace="t", mss=1448, queue=10, delay_us=20000, timeout_us=1000000, acks=9, agent="reno")
RIGHT = json.dumps({"version": 1, "traces": {"t": "10\n"}, "cases": [CASE]})
SHARED_TRACE = ('"cases": [', '"shared": {"trace": "u", "rounds": 5, "quantum_us": 5}, "cases": [', "shared")


@pytest.mark.parametrize("old, new, member", WRONG_MEMBERS)
def test_texts_beside_a_scenario_that_ccp_refuses(tmp_path: Path, old: str, new: str, member: str) -> None:
    """Figures and plots name the member that is wrong."""
    assert old in RIGHT
    scenario, timeline = tmp_path / "scenario.json", tmp_path / "timeline.txt"
    timeline.write_text(ccp("timeline", given=RIGHT).output)
    scenario.write_text(RIGHT.replace(old, new))
    for words in (["metrics", scenario, timeline], ["plot", "flows", "--scenario", scenario, timeline, "x.svg"]):
        made = run_inside(*words)
        assert made.status == 1 and made.output == "", made
        assert ": no scenario of ccp: %s is missing or of another kind\n" % member in made.errors


@pytest.mark.parametrize("old, new, place", [('"trace": "t"', '"trace": "u"', "cases[0]"), SHARED_TRACE])
def test_a_trace_that_the_scenario_lacks(tmp_path: Path, old: str, new: str, place: str) -> None:
    scenario, timeline = tmp_path / "scenario.json", tmp_path / "timeline.txt"
    timeline.write_text(ccp("timeline", given=RIGHT).output)
    assert old in RIGHT
    scenario.write_text(RIGHT.replace(old, new))
    for words in (["metrics", scenario, timeline], ["plot", "flows", "--scenario", scenario, timeline, "x.svg"]):
        made = run_inside(*words)
        said = "%s: no scenario of ccp: %s.trace names u, and the scenario has no such trace\n" % (scenario, place)
        assert made.status == 1 and made.output == "" and made.errors.endswith(said), made
