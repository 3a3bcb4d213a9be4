"""Senders that are agents outside: their runs by `drive`, and the recordings of these. What drives them is imported
where a sender is one, since few comparisons have any."""

from __future__ import annotations

import hashlib
from dataclasses import dataclass
from pathlib import Path
from typing import Any, Dict, Mapping, Sequence

from .. import program
from ..errors import CcpError
from ..files import name_of, read_bytes
from ..senders import Sender

# the modes that print of a recording what others print of a scenario
OF_DRIVE = {"campaign": "drive-table", "timeline": "drive-timeline", "acks": "drive-acks"}


@dataclass(frozen=True)
class Recording:
    """The recording of an agent outside: the label of its sender, its file, and its bytes."""

    label: str
    path: Path
    data: bytes

    @property
    def sha256(self) -> str:
        """The SHA-256 of the bytes, in hex."""
        return hashlib.sha256(self.data).hexdigest()


def check(senders: Sequence[Sender], path: Path, is_loaded: bool = True) -> None:
    """Refuses a sender whose agent outside isn't one, and any where the program has no mode for them. Where the agents
    aren't loaded, their files are read and nothing of them runs."""
    outside = [one for one in senders if one.file]
    for one in outside:
        try:
            if is_loaded:
                programs_of(str(one.file))
            else:
                read_bytes(str(one.file))
        except CcpError as error:
            raise CcpError("the sender %s: %s" % (one.label, error)) from None
    if outside and not program.knows_mode("drive", path):
        raise CcpError(
            "the sender %s is an agent outside, and %s has no mode drive" % (outside[0].label, name_of(path))
        )


def programs_of(file: str) -> Dict[str, str]:
    """The programs of the agent in a file, by their names. A CcpError where it has none."""
    from ..drive.agents import load_agent

    return dict(load_agent(file).programs)


def recording_path(folder: Path, label: str, number: int) -> Path:
    """The file of a sender's recording, before which it has `number` others. No label has a +."""
    return folder / ("%s.drive" % label if number == 0 else "%s+%d.drive" % (label, number + 1))


def record(label: str, file: str, part: Mapping[str, Any], path: Path, ccp: Path) -> Recording:
    """Lets the agent of a file drive the flows of a part, and keeps what it sent at a path."""
    from ..drive.agents import run_file

    try:
        made = run_file(file, part, program=ccp, record=path)
    except CcpError as error:
        raise CcpError("the sender %s: %s" % (label, error), error.status) from None
    return Recording(label, path, made.recording)


def file_sha256(path: str) -> str:
    """The SHA-256 of a file, in hex."""
    return hashlib.sha256(read_bytes(path)).hexdigest()
