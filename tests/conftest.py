"""What all tests share: the program, the repository, and what a test needs that a machine may lack."""
from __future__ import annotations

import importlib.util
import os
import shutil
import signal
from pathlib import Path
from typing import List, Optional

import pytest
import support

from ccp_tools.program import find_program


def pytest_addoption(parser: pytest.Parser) -> None:
    parser.addoption("--program", metavar="PATH", help="the program ccp (CCP_PROGRAM, or the one that ./ccp runs)")


def pytest_configure(config: pytest.Config) -> None:
    # a job in the background of a script ignores Ctrl-C, and so would all that tests start and interrupt
    if signal.getsignal(signal.SIGINT) is signal.SIG_IGN:
        signal.signal(signal.SIGINT, signal.default_int_handler)
    # and one that nohup started ignores SIGHUP, as this process still does
    if signal.getsignal(signal.SIGHUP) is signal.SIG_IGN:
        signal.signal(signal.SIGHUP, lambda number, frame: None)
    if config.getoption("--program"):
        os.environ["CCP_PROGRAM"] = os.path.abspath(config.getoption("--program"))


@pytest.fixture(scope="session")
def program() -> Path:
    """The program; commands that a test starts find the same one."""
    found = find_program()
    os.environ["CCP_PROGRAM"] = str(found)
    return found


@pytest.fixture(scope="session")
def program_path(program: Path) -> Path:
    """The same, for tests that use a module of that name."""
    return program


@pytest.fixture(scope="session", params=["stand-in", "program"])
def driver(request: pytest.FixtureRequest, program: Path, tmp_path_factory: pytest.TempPathFactory) -> Path:
    """What runs the modes of `drive`: the reference model, and the program itself where it has them."""
    if request.param == "stand-in":
        return support.stand_in(tmp_path_factory.mktemp("stand-in"))
    if not support.has_mode("drive"):
        pytest.skip("the program has no mode drive")
    return program


@pytest.fixture(scope="session")
def repository() -> Path:
    """The top of the repository."""
    return support.REPOSITORY


@pytest.hookimpl(tryfirst=True)
def pytest_collection_modifyitems(config: pytest.Config, items: List[pytest.Item]) -> None:
    """Slow tests and groups begin first, so that at the end no process waits for one. With xdist the tests of a group
    run in one process, and all others wherever there is room."""
    items.sort(key=lambda item: (item.get_closest_marker("slow") is None, group_of(item) is None))
    if config.pluginmanager.hasplugin("xdist"):
        for item in items:
            group = group_of(item)
            if group:
                item.add_marker(pytest.mark.xdist_group(group))


def group_of(item: pytest.Item) -> Optional[str]:
    """The group of a test: the one that it is marked with, or that of the fixtures of module scope that it uses, which
    are costly. A fixture that costs little has the scope of a session, and each process makes its own."""
    marker = item.get_closest_marker("together")
    if marker:
        return str(marker.args[0])
    found = getattr(item, "_fixtureinfo").name2fixturedefs
    costly = sorted(name for name, definitions in found.items() if definitions[-1].scope == "module")
    return "-".join([item.path.stem, *costly]) if costly else None


def is_there(name: str) -> bool:
    """Whether a command is on the PATH, or, with `import `, whether Python has a module."""
    if name.startswith("import "):
        return importlib.util.find_spec(name[len("import ") :]) is not None
    return shutil.which(name) is not None


def pytest_runtest_setup(item: pytest.Item) -> None:
    """Skips a test whose needs aren't installed; with CCP_STRICT=1 it fails."""
    for marker in item.iter_markers("needs"):
        for name in marker.args:
            if not is_there(name):
                if os.environ.get("CCP_STRICT") == "1":
                    pytest.fail("%s isn't installed: tools/install --tests" % name, pytrace=False)
                pytest.skip("%s isn't installed" % name)
