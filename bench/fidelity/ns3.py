"""The cases in ns-3: `TcpLinuxReno` and `TcpCubic` with SACK and PRR. It needs libns3-dev of Debian, and g++."""

from __future__ import annotations

import subprocess
from pathlib import Path
from typing import List

from ccp_tools.errors import CcpError

from .build import compiled
from .cases import SEGMENT_BYTES, Case, Outcome
from .logs import acknowledgements, kept, read_log, read_windows, write_losses

HERE = Path(__file__).resolve().parent
HEADERS = Path("/usr/include/ns3")
LIBRARIES = ["ns3-" + name for name in ("applications", "internet", "network", "core", "stats")]


def missing() -> str:
    """Why this machine can't run the cases, or an empty text."""
    return "" if HEADERS.is_dir() else "ns-3 isn't installed: tools/install --all"


def identity() -> str:
    """Which ns-3 it is, by the package's version."""
    words = ["dpkg-query", "--show", "--showformat=${Version}", "libns3-dev"]
    try:
        ran = subprocess.run(words, stdout=subprocess.PIPE, stderr=subprocess.DEVNULL, text=True)
    except OSError:
        return "ns-3"
    return "ns-3 " + ran.stdout.partition("+")[0] if ran.stdout else "ns-3"


def program(folder: Path) -> Path:
    """The program of ns3.cc, compiled into a folder."""
    return compiled(HERE / "ns3.cc", folder, LIBRARIES)


def run(case: Case, folder: Path, has_hystart: bool = True) -> Outcome:
    """Runs a case in virtual time; equal cases give equal figures. What it gave is kept in the folder, and a run that
    is there isn't repeated."""
    sender = case.algorithm if has_hystart else case.algorithm + " without HyStart"
    place = str(folder / ("ns3-%s%s" % (case.name, "" if has_hystart else "-without-hystart")))
    log, windows = Path(place + ".log"), Path(place + ".windows")
    kept(Path(place + ".summary"), case, lambda: printed(case, folder, has_hystart, log, windows))
    acks = acknowledgements(read_log(log), case)
    return Outcome(case, "ns-3", sender, acks, read_windows(windows, 0, 1e-6, 1 / SEGMENT_BYTES))


def printed(case: Case, folder: Path, has_hystart: bool, log: Path, windows: Path) -> str:
    """Runs a case, and gives what its program prints."""
    words = ["--trace=%s" % case.trace_path, "--queue=%d" % case.queue, "--segments=%d" % case.segments]
    words += ["--flows=%s:%d" % (case.algorithm, 1000 * case.delay_ms)]
    words += ["--log=%s" % log, "--windows=%s" % windows, "--hystart=%d" % has_hystart]
    if case.losses:
        words.append("--losses=%s" % write_losses(case, log))
    return said(words, folder, case.name)


def said(words: List[str], folder: Path, name: str) -> str:
    """What the program prints of a run by these words."""
    ran = subprocess.run([str(program(folder)), *words], stdout=subprocess.PIPE, stderr=subprocess.PIPE, text=True)
    if ran.returncode:
        raise CcpError("case %s: ns-3 fails: %s" % (name, ran.stderr.strip()[-400:]))
    return ran.stdout
