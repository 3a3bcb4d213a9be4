"""What tests call: commands, the program, texts to read, and the needs of a test."""
from __future__ import annotations

import importlib
import importlib.machinery
import importlib.util
import os
import shlex
import stat
import subprocess
import sys
from pathlib import Path
from types import ModuleType
from typing import Any, Dict, Iterable, NamedTuple, Sequence

import forked
import pytest

from ccp_tools.program import find_program
from ccp_tools.tables import COLUMNS, SUMS

REPOSITORY = Path(__file__).resolve().parents[1]
EXAMPLES = REPOSITORY / "examples"
TRACES = [EXAMPLES / "traces" / (name + ".trace") for name in ("fixed", "wave", "train")]


def needs(*names: str) -> pytest.MarkDecorator:
    """Marks a test that uses commands, as "parallel", or modules of Python, as "import pandas"."""
    return pytest.mark.needs(*names)


def require(name: str) -> Any:
    """A module that all tests of a file use. Without it they are skipped, or with CCP_STRICT=1 fail."""
    try:
        return importlib.import_module(name)
    except ImportError:
        reason = "%s isn't installed" % name
        if os.environ.get("CCP_STRICT") == "1":
            pytest.fail("%s: tools/install --tests" % reason, pytrace=False)
        pytest.skip(reason, allow_module_level=True)


def loaded(name: str) -> ModuleType:
    """A script of tools/ as a module of its own."""
    loader = importlib.machinery.SourceFileLoader("script_" + name, str(REPOSITORY / "tools" / name))
    spec = importlib.util.spec_from_loader(loader.name, loader)
    assert spec
    module = importlib.util.module_from_spec(spec)
    # dataclasses look there for the names of their types
    sys.modules[loader.name] = module
    loader.exec_module(module)
    return module


class Ran(NamedTuple):
    """What a command printed on standard output and on standard error, and its exit status."""

    output: str
    errors: str
    status: int


def shown(page: str, command: str) -> str:
    """What a page of docs/ shows of a command's output. tools/check-docs compares it with the program's."""
    text = (REPOSITORY / "docs" / page).read_text(encoding="utf-8")
    return text.split("\n```\n$ %s\n" % command, 1)[1].split("```\n", 1)[0]


def ran(words: Sequence[object], given: str | bytes | None = None, **more: Any) -> Ran:
    """Runs a command. Its input is empty where none is given; `env` adds to the environment."""
    env = environment(**more.pop("env", {}))
    done = subprocess.run(
        [str(word) for word in words],
        input=bytes_of(given),
        stdout=subprocess.PIPE,
        stderr=subprocess.PIPE,
        env=env,
        **more,
    )
    return decoded(done.stdout, done.stderr, done.returncode)


def environment(**more: str) -> Dict[str, str]:
    """The environment of a command: the package is that of this repository, and nothing is written beside it."""
    return {**os.environ, "PYTHONPATH": str(REPOSITORY / "src"), "PYTHONDONTWRITEBYTECODE": "1", **more}


def bytes_of(given: str | bytes | None) -> bytes:
    """The bytes of an input."""
    return given.encode("utf-8", "surrogateescape") if isinstance(given, str) else given or b""


def decoded(output: bytes, errors: bytes, status: int) -> Ran:
    """What a process printed, and its status."""
    return Ran(output.decode("utf-8", "surrogateescape"), errors.decode("utf-8", "replace"), status)


def command(name: str, *words: object, given: str | bytes | None = None, **more: Any) -> Ran:
    """Runs `ccp NAME ..` of the package in a process of its own. One that is asked for nothing else begins with the
    libraries that all of them use, whose import takes most of its time."""
    if set(more) - {"timeout"}:
        return ran([sys.executable, "-m", "ccp_tools", name, *words], given, **more)
    texts, env = [str(word) for word in (name, *words)], environment()
    return decoded(*forked.server(env).run(texts, bytes_of(given), env, os.getcwd(), **more))


def ccp(*words: object, given: str | bytes | None = None) -> Ran:
    """Runs the program itself."""
    return ran([find_program(), *words], given)


def has_mode(name: str) -> bool:
    """Whether the program has a mode; another one refuses the word."""
    return ccp(name).status != 2


def stand_in(folder: Path) -> Path:
    """A program like `ccp` in which the reference model runs the modes of `drive`; the others are the program's own."""
    source, python, found = (shlex.quote(str(path)) for path in (REPOSITORY / "src", sys.executable, find_program()))
    model = "PYTHONPATH=%s exec %s -m ccp_tools.reference.driven --ccp %s" % (source, python, found)
    return script(folder, "ccp", 'case $1 in drive*) %s "$@" ;; esac\nexec %s "$@"\n' % (model, found), "#!/bin/sh\n")


def table_text(rows: Iterable[Dict[str, Any]]) -> str:
    """The text of a table: each row is a dict of columns, and any other number of it is 0."""
    whole = [{**dict.fromkeys(COLUMNS, 0), **row} for row in rows]
    total = ["cases=%d" % len(whole)] + ["%s=%d" % (name, sum(row[name] for row in whole)) for name in SUMS]
    lines = [COLUMNS, *([str(row[name]) for name in COLUMNS] for row in whole), ["total", *total]]
    return "".join(" ".join(line) + "\n" for line in lines)


def three_digits(value: float, decimals: int) -> str:
    """A number with these decimals, or as many as three significant digits need; 0 has none."""
    plain, short = "%.*f" % (decimals, value), "%#.3g" % value
    return max(plain, short, key=lambda text: len(text.partition(".")[2])) if value else "0"


def script(folder: Path, name: str, text: str, first: str = "#!/usr/bin/env bash\n") -> Path:
    """A new executable in a folder: a script of bash, unless another first line is given."""
    path = folder / name
    path.write_text(first + text, encoding="utf-8")
    path.chmod(path.stat().st_mode | stat.S_IXUSR)
    return path
