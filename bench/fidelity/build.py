"""Compiles the C++ programs of this folder."""

from __future__ import annotations

import subprocess
from pathlib import Path
from typing import Sequence

from ccp_tools.errors import CcpError


def compiled(source: Path, folder: Path, libraries: Sequence[str] = ()) -> Path:
    """The program of a source, in a folder; it is compiled where it isn't there, or is older than its source."""
    made = folder / source.stem
    if made.exists() and made.stat().st_mtime > source.stat().st_mtime:
        return made
    words = ["g++", "-std=c++17", "-O2", "-Wall", "-Wextra", "-o", str(made), str(source)]
    try:
        ran = subprocess.run([*words, *("-l" + name for name in libraries)], stderr=subprocess.PIPE, text=True)
    except OSError as error:
        raise CcpError("g++: %s; tools/install --all installs it" % error.strerror) from None
    if ran.returncode:
        raise CcpError("%s can't be compiled:\n%s" % (source.name, ran.stderr))
    return made
