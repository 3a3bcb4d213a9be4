"""Tests of tools/wheel: what `pip install` of the wheel gives in an empty virtual environment, without a network and
without a package of Debian's Python."""
from __future__ import annotations

import os
import subprocess
import sys
import zipfile
from pathlib import Path
from typing import Dict

import pytest
from support import EXAMPLES, REPOSITORY, Ran, needs, script

TRACE = EXAMPLES / "traces" / "fixed.trace"
MODULES = "pandas numpy scipy matplotlib jinja2"

pytestmark = needs("import setuptools", "import wheel", "import pip", "import venv")


def environment(**more: str) -> Dict[str, str]:
    """The environment of a user of the wheel: no package and no program of the tests' own."""
    kept = {name: value for name, value in os.environ.items() if not name.startswith(("CCP_", "PYTHON"))}
    return {**kept, "PATH": "/usr/bin:/bin", "PYTHONDONTWRITEBYTECODE": "1", **more}


def ran(*words: object, given: str = "", **more: str) -> Ran:
    """Runs a command as that user, in a folder that has nothing."""
    texts = [str(word) for word in words]
    done = subprocess.run(texts, input=given, capture_output=True, text=True, cwd="/", env=environment(**more))
    return Ran(done.stdout, done.stderr, done.returncode)


@pytest.fixture(scope="module")
def wheel(program: Path, tmp_path_factory: pytest.TempPathFactory) -> Path:
    """The wheel with the program of the tests."""
    out = tmp_path_factory.mktemp("wheel")
    made = ran(REPOSITORY / "tools/wheel", "--out", out, CCP_PROGRAM=str(program), CCP_PYTHON=sys.executable)
    assert made.status == 0, made.errors
    return next(out.glob("*.whl"))


@pytest.fixture(scope="module")
def venv(wheel: Path, tmp_path_factory: pytest.TempPathFactory) -> Path:
    """An empty virtual environment with the wheel, whose path has a blank."""
    folder = tmp_path_factory.mktemp("virtual environment") / "venv"
    pip = [sys.executable, "-m", "pip", "--python", folder, "--disable-pip-version-check"]
    for words in (
        [sys.executable, "-m", "venv", "--without-pip", folder],
        [*pip, "install", "--quiet", "--no-index", wheel],
    ):
        made = ran(*words)
        assert made.status == 0, made.errors
    return folder


def test_the_name_of_a_wheel_says_where_it_runs(wheel: Path) -> None:
    version = (REPOSITORY / "VERSION").read_text(encoding="utf-8").strip()
    assert wheel.name == "ccp_tools-%s-py3-none-manylinux_2_34_x86_64.whl" % version
    with zipfile.ZipFile(wheel) as file:
        metadata = file.read("ccp_tools-%s.dist-info/METADATA" % version).decode()
        modes = {info.filename: info.external_attr >> 16 & 0o777 for info in file.infolist()}
    assert "Requires-Dist: pandas (>=1.5) ; extra == 'plots'" in metadata.replace(">=1.5;", "(>=1.5) ;")
    assert [line for line in metadata.splitlines() if line.startswith("Requires-Dist") and "extra" not in line] == []
    assert {mode for name, mode in modes.items() if name.endswith("/ccp") and "share" not in name} == {0o755}
    assert [name for name, mode in modes.items() if mode & 0o022 and not name.endswith("/RECORD")] == []


def test_modes_of_a_wheel_answer(venv: Path) -> None:
    ccp = venv / "bin" / "ccp"
    expected = (EXAMPLES / "campaign.out").read_text(encoding="utf-8")
    assert ran(ccp, "campaign", EXAMPLES / "campaign.json") == (expected, "", 0)
    assert ran(ccp, "--version").output.startswith("ccp ") and "\n  campaign " in ran(ccp, "--help").output


def test_commands_of_a_wheel_that_need_no_module_answer(venv: Path) -> None:
    ccp = venv / "bin" / "ccp"
    made = ran(ccp, "scenario", TRACE, "--senders", "reno", "--queue", "50", "--delay-ms", "20", "--acks", "100")
    assert made.errors == "" and made.status == 0
    table = ran(ccp, "campaign", given=made.output)
    assert ran(ccp, "table", given=table.output).output.startswith("case,agent,acks,")
    assert ran(ccp, "explain", "--for", "campaign", given=made.output).status == 0
    assert ran(ccp, "trace", "info", TRACE).output.startswith(str(TRACE))
    live = venv / "live.txt"
    live.write_text(ran(ccp, "live", EXAMPLES / "live.json").output, encoding="utf-8")
    assert ran(ccp, "verify", EXAMPLES / "live.json", live) == ("yes\n", "", 0)


@pytest.mark.parametrize("command", ["ccp", "ccp-tools"])
def test_a_command_of_a_wheel_names_the_modules_that_it_lacks(venv: Path, command: str) -> None:
    refused = ran(venv / "bin" / command, "compare", TRACE, "--senders", "reno")
    python = venv / "bin" / "python"
    missing = "ccp compare: %s has no module %s: " % (python, MODULES.replace(" ", ", "))
    assert refused == ("", "%s'%s' -m pip install %s\n" % (missing, python, MODULES), 1)


def test_the_package_of_a_wheel_has_its_own_program(venv: Path, tmp_path: Path) -> None:
    """Also where another `ccp` comes first on the PATH, and CCP_PROGRAM comes before both."""
    other = script(tmp_path, "ccp", "exit 9\n")
    text = "from ccp_tools.program import find_program, identity as i; p = find_program(); print(p, i(p).is_proved)"
    words, path = [venv / "bin" / "python3", "-c", text], "%s:/usr/bin:/bin" % tmp_path
    assert ran(*words, PATH=path) == ("%s True\n" % (venv / "libexec/ccp/ccp"), "", 0)
    assert ran(*words, PATH=path, CCP_PROGRAM=str(other)) == ("%s False\n" % other, "", 0)


def test_what_a_wheel_put_pip_removes(wheel: Path, tmp_path: Path) -> None:
    """Every file of it is in its list."""
    with zipfile.ZipFile(wheel) as file:
        record = next(name for name in file.namelist() if name.endswith("/RECORD"))
        listed = {line.split(",")[0] for line in file.read(record).decode().splitlines()}
        assert listed == set(file.namelist())


def test_wrong_words_of_the_script_are_one_line(tmp_path: Path) -> None:
    for words in (["x"], ["--out"], ["--in", "x"]):
        refused = ran(REPOSITORY / "tools/wheel", *words)
        assert (refused.output, refused.status, refused.errors.count("\n")) == ("", 2, 1)
    lines = (REPOSITORY / "tools/wheel").read_text(encoding="utf-8").splitlines()[1:]
    end = next(at for at, line in enumerate(lines) if not line.startswith("#"))
    assert ran(REPOSITORY / "tools/wheel", "--help").output.splitlines() == [line[2:] for line in lines[:end]]
