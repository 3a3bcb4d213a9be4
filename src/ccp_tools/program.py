"""Finds the program `ccp` and runs it.

    from ccp_tools import program

    made = program.run("campaign", open("examples/campaign.json").read(), workers=4)
    print(made.output)"""
from __future__ import annotations

import hashlib
import os
import shutil
import subprocess
import sys
from dataclasses import dataclass
from functools import lru_cache
from pathlib import Path
from typing import Any, Dict, List, Mapping, Union

from . import texts
from .errors import CcpError, Failed, NoProgram
from .interrupts import run_process
from .scenario_files import scenario_text

Given = Union[str, bytes, Mapping[str, Any]]

# modes whose output doesn't depend on the number of workers, and that a run gives all processors unless it is asked
# otherwise; over one bottleneck more workers aren't faster
PARALLEL = ("campaign", "timeline", "acks", "soak")
MOST_WORKERS = 32


def checkout() -> Path | None:
    """The top of the checkout that this package runs in, or None where it is installed elsewhere."""
    top = Path(__file__).resolve().parents[2]
    return top if (top / "crates.txt").is_file() and (top / "tools" / "launcher").is_dir() else None


# ---- finding it


def find_program(path: str | Path | None = None) -> Path:
    """The program to run, as an absolute path: the one given, else that of the variable CCP_PROGRAM. Else, in a
    checkout, the one that `./ccp` runs: the proved one, else the unproved one, which is compiled first where it has to
    be. Else the program that was installed with this package, else that of the `ccp` on the PATH. Where there is none,
    that is NoProgram."""
    named = path or os.environ.get("CCP_PROGRAM")
    top = checkout()
    if named:
        found: Path | None = Path(named)
    elif top:
        found = of_checkout(top)
    else:
        found = installed_here() or installed()
    if found is None:
        raise NoProgram("there is no ccp on the PATH; --ccp PATH or CCP_PROGRAM=PATH names one")
    if not (found.is_file() and os.access(found, os.X_OK)):
        raise NoProgram("there is no program at %s; --ccp PATH or CCP_PROGRAM=PATH names another" % found)
    return Path(os.path.abspath(found))


def of_checkout(top: Path) -> Path:
    """The program that `./ccp` runs in a checkout. The unproved one is compiled first where it has to be; the lines of
    the compiler go to standard error."""
    command = top / "tools" / "launcher" / "checked-program"
    try:
        ran = subprocess.run([str(command), "--chosen"], stdin=subprocess.DEVNULL, stdout=subprocess.PIPE, text=True)
    except OSError as error:
        raise NoProgram("%s: %s" % (command, error.strerror)) from None
    if ran.returncode or not ran.stdout.strip():
        raise NoProgram("this checkout gives no program; --ccp PATH or CCP_PROGRAM=PATH names another")
    return Path(ran.stdout.strip())


def installed_here(package: Path = Path(__file__).resolve().parent) -> Path | None:
    """The program that was installed with this package: PREFIX/libexec/ccp/ccp, where the package is in
    PREFIX/lib/pythonVERSION/site-packages or its like, as a wheel and Debian's package put it, or in
    PREFIX/libexec/ccp/python, as tools/install-ccp does."""
    above = package.parents
    for places, name in ((1, "ccp"), (3, "libexec/ccp/ccp")):
        found = above[places] / name if len(above) > places else None
        if found and found.is_file() and is_installed(found):
            return found
    return None


def is_installed(path: Path) -> bool:
    """Whether a program is one that was installed beside its launcher."""
    return path.parent.name == "ccp" and path.parent.parent.name == "libexec"


def installed() -> Path | None:
    """The program of the `ccp` on the PATH: beside a launcher it is PREFIX/libexec/ccp/ccp."""
    command = shutil.which("ccp")
    if command is None:
        return None
    resolved = Path(command).resolve()
    beside = resolved.parent.parent / "libexec" / "ccp" / "ccp"
    return beside if beside.is_file() else resolved


# ---- running it


@dataclass
class Run:
    """What a run printed on standard output and on standard error, and its status. Bytes that aren't UTF-8 are half
    surrogates in `output`, as the option `surrogateescape` of Python has them."""

    output: str
    errors: str
    status: int


def run(
    mode: str,
    given: Given = "",
    *,
    program: str | Path | None = None,
    check: bool = True,
    timeout: float | None = None,
    **options: Any,
) -> Run:
    """Runs `ccp MODE` on an input: a text, bytes, or a scenario as a dict. Options are those of the mode, as workers=4,
    datapaths=2, agents=2, number=7, wire=True; None and False leave one out. Another status than 0 is Failed, unless
    check=False. A run past `timeout` seconds is ended, and a CcpError."""
    words = [str(find_program(program)), mode, *option_words(options)]
    try:
        ran = run_process(words, input_bytes(given), timeout)
    except OSError as error:
        raise NoProgram("%s: %s" % (words[0], error.strerror)) from None
    except subprocess.TimeoutExpired:
        raise CcpError("ccp %s isn't done after %g s" % (mode, timeout or 0)) from None
    made = Run(ran.stdout.decode("utf-8", "surrogateescape"), ran.stderr.decode("utf-8", "replace"), ran.returncode)
    if check and made.status:
        raise Failed(made.status, made.errors)
    return made


def option_words(options: Mapping[str, Any]) -> List[str]:
    """The words of the command line for options by their names."""
    words = []
    for name, value in options.items():
        if value is True:
            words.append("--" + name)
        elif value is not None and value is not False:
            words.append("--%s=%d" % (name, value))
    return words


def input_bytes(given: Given) -> bytes:
    """The bytes of an input."""
    if isinstance(given, bytes):
        return given
    return (given if isinstance(given, str) else scenario_text(given)).encode("utf-8", "surrogateescape")


def processors() -> int:
    """How many workers a run gets where nothing else is said: one for each processor of this process, at most 32."""
    count = len(os.sched_getaffinity(0)) if hasattr(os, "sched_getaffinity") else os.cpu_count() or 1
    return min(MOST_WORKERS, count)


def knows_mode(mode: str, program: str | Path | None = None) -> bool:
    """Whether the program has a mode of this name; one that doesn't refuses the word."""
    return run(mode, "", program=program, check=False).status != 2


def run_table(scenario: Given, mode: str = "campaign", **options: Any) -> texts.Table:
    """The table that `campaign` or `shared` prints of a scenario (a dict or a text). Options are those of `run`."""
    return texts.read_table(run(mode, scenario, **with_workers(mode, options)).output)


def run_flows(scenario: Given, mode: str = "timeline", **options: Any) -> List[texts.Flow]:
    """The flows that `timeline`, `shared-timeline`, `live` or `rollout` prints of a scenario. Options are those of
    `run`."""
    return texts.read_flows(run(mode, scenario, **with_workers(mode, options)).output)


def run_acks(scenario: Given, mode: str = "acks", **options: Any) -> List[texts.AckFlow]:
    """The acknowledgements that `acks` or `shared-acks` prints of a scenario. Options are those of `run`."""
    return texts.read_acks(run(mode, scenario, **with_workers(mode, options)).output)


def with_workers(mode: str, options: Mapping[str, Any]) -> Dict[str, Any]:
    """Options of a run, with all processors at work in the modes whose output doesn't depend on it."""
    return {"workers": processors(), **options} if mode in PARALLEL else dict(options)


# ---- which one it is


@dataclass(frozen=True)
class Identity:
    """Which program a file is: its path, the SHA-256 of its bytes in hex, the version of this package's sources, and
    whether it is the proved program of this checkout or of this installation."""

    path: Path
    sha256: str
    version: str
    is_proved: bool


@lru_cache(maxsize=8)
def identity(path: Path) -> Identity:
    """Which program the file at a path is; a file that can't be read is a CcpError."""
    from . import __version__

    try:
        digest = hashlib.sha256(path.read_bytes()).hexdigest()
    except OSError as error:
        raise CcpError("%s: %s" % (path, error.strerror)) from None
    return Identity(path, digest, __version__, is_proved(path))


def is_proved(path: Path) -> bool:
    """Whether a program is the proved one: that of the checkout, which `./ccp --prove` and the tests build, or that of
    release/, where it is of these sources; or one that was installed beside its launcher."""
    top = checkout()
    if top:
        command = [str(top / "tools" / "launcher" / "checked-program"), "--proved"]
        ran = subprocess.run(command, stdin=subprocess.DEVNULL, capture_output=True, text=True)
        if ran.returncode not in (0, 1):
            raise CcpError(last_line(ran.stderr) or "%s ended with status %d" % (command[0], ran.returncode))
        return any(path.samefile(proved) for proved in ran.stdout.splitlines())
    return is_installed(path)


def last_line(text: str) -> str:
    """The last line of an error output, without the `ccp: ` before it."""
    line = text.rstrip("\n").rpartition("\n")[2]
    return line[len("ccp: ") :] if line.startswith("ccp: ") else line


def note(text: str) -> None:
    """Prints a line about progress on standard error."""
    print(text, file=sys.stderr, flush=True)
