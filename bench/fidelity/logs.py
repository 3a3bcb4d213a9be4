"""Reads what a link did with the packets of a stack, as acknowledgements of `ccp`, so that `ccp_tools.metrics` gives
the same figures of each stack.

A log has a line for each data packet in the order in which they came to the link: its time in microseconds, its
sequence number, and its wait for a chance in microseconds, or -1 where it was lost."""

from __future__ import annotations

from pathlib import Path
from typing import Callable, Sequence

import numpy as np
import pandas as pd
from ccp_tools.errors import CcpError

from .cases import SEGMENT_BYTES, Case, Group


def kept(path: Path, case: Case | Group, work: Callable[[], str]) -> str:
    """What a run of a case printed. `work` runs it where the file at `path` doesn't have a run of this very case, and
    then the file gets it."""
    head = "%r\n" % (case,)
    if not (path.exists() and path.read_text().startswith(head)):
        path.write_text(head + work())
    return path.read_text()[len(head) :]


def write_losses(case: Case, log: Path) -> Path:
    """A file with the packets that a case loses, beside its log."""
    path = log.with_suffix(".losses")
    path.write_text("".join("%d\n" % packet for packet in case.losses))
    return path


def read_log(path: Path, others: Sequence[str] = ()) -> pd.DataFrame:
    """The log in a file: columns `time_us`, `sequence`, `wait_us` and the others, whole numbers."""
    try:
        return pd.read_csv(path, sep=" ", names=["time_us", "sequence", "wait_us", *others], dtype=np.int64)
    except (OSError, ValueError) as error:
        raise CcpError("%s: no log of a link: %s" % (path, error)) from None


def acknowledgements(log: pd.DataFrame, case: Case) -> pd.DataFrame:
    """The acknowledgements of a log up to that of the case's last segment, as `ccp_tools.frames.AckFrame` has them.

    Each packet that the link served is acknowledged, with the case's delay after its chance. Its bytes count where its
    segment wasn't served before. A lost packet is reported with the next one that was served. A log with fewer segments
    than the case is a CcpError."""
    is_served = (log["wait_us"] >= 0).to_numpy()
    served = log[is_served]
    is_new = ~served["sequence"].duplicated().to_numpy()
    if is_new.sum() < case.segments:
        raise CcpError("case %s: the log has %d segments of %d" % (case.name, is_new.sum(), case.segments))
    count = int(np.searchsorted(np.cumsum(is_new), case.segments)) + 1
    lost = np.diff(np.cumsum(~is_served)[is_served], prepend=0)
    trips = served["wait_us"].to_numpy() + 1000 * case.delay_ms
    frame = pd.DataFrame(
        {
            "now": served["time_us"].to_numpy() + trips,
            "rtt_sample_us": trips,
            "packets_acked": 1,
            "bytes_acked": SEGMENT_BYTES * is_new.astype(np.int64),
            "lost_pkts_sample": lost,
            "was_timeout": False,
        }
    )
    return frame.iloc[:count].reset_index(drop=True)


def read_windows(path: Path, begin: float, scale: float, unit: float = 1) -> pd.DataFrame:
    """The windows in a file with a time and a window a line. The times become seconds after `begin` by the factor
    `scale`, and windows segments by the factor `unit`. Those before `begin` are left out."""
    try:
        found = pd.read_csv(path, sep=" ", names=["seconds", "segments"])
    except (OSError, ValueError) as error:
        raise CcpError("%s: no windows: %s" % (path, error)) from None
    found["seconds"] = (found["seconds"] - begin) * scale
    found["segments"] = found["segments"] * unit
    return found[found["seconds"] >= 0].reset_index(drop=True)
