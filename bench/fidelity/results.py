"""The figures of all runs, as data: a row a run, in a CSV file.

Columns are `stack` (ccp, ns-3, linux), `version`, `sender`, the case (`trace`, `queue` in packets, `delay_ms`,
`algorithm`, `segments`), `run` from 1, the figures FIGURES of docs/metrics.md, `lost_after_5s` in packets, and
of Linux how late packets left the emulator in microseconds, in the mean and as a 95th percentile. Runs with losses by
chance have `rate`, the chance of each packet, and `seed` too."""

from __future__ import annotations

from pathlib import Path
from typing import Any, Dict, Iterable, List, Sequence

import pandas as pd
from ccp_tools import metrics
from ccp_tools.errors import CcpError
from ccp_tools.metrics import Link, Window

from .cases import Outcome

OF_CASE = ["trace", "queue", "delay_ms", "algorithm"]
KEY = ["stack", "sender", *OF_CASE]
FIGURES = ["end_s", "throughput_mbps", "lost", "queueing_mean_ms", "queueing_p95_ms"]
LATE = ["late_mean_us", "late_p95_us"]
COLUMNS = ["stack", "version", "sender", *OF_CASE, "segments", "run", *FIGURES, "lost_after_5s", *LATE]
OF_CHANCE = ["rate", "seed"]
SLOW_START_US = 5_000_000


def row_of(outcome: Outcome, version: str) -> Dict[str, Any]:
    """The row of a run."""
    case = outcome.case
    of_case = (case.model_case if outcome.stack == "ccp" else case.scenario_case)(outcome.sender)
    link = Link({"traces": {case.trace: case.trace_path.read_text()}})
    found = metrics.figures_of_acks(of_case, outcome.acks, link)
    after = metrics.figures_of_acks(of_case, outcome.acks, link, Window(SLOW_START_US))
    made = {"stack": outcome.stack, "version": version, "sender": outcome.sender, "run": outcome.run}
    made.update({name: getattr(case, name) for name in (*OF_CASE, "segments", *OF_CHANCE)})
    made.update({name: found[name] for name in FIGURES}, lost_after_5s=after.get("lost", 0))
    return {**made, **(outcome.notes or {})}


def frame_of(rows: Iterable[Dict[str, Any]], columns: Sequence[str] = COLUMNS) -> pd.DataFrame:
    """The rows as a frame with these columns."""
    return pd.DataFrame(list(rows), columns=list(columns))


def write(frame: pd.DataFrame, path: Path) -> None:
    """Writes the figures as CSV, numbers with six significant digits at most."""
    frame.to_csv(path, index=False, float_format="%.6g", lineterminator="\n")


def read(path: Path, columns: Sequence[str] = COLUMNS) -> pd.DataFrame:
    """The figures in a file, with these columns. Another file is a CcpError."""
    try:
        frame = pd.read_csv(path)
    except (OSError, ValueError) as error:
        raise CcpError("%s: no figures of bench/fidelity: %s" % (path, error)) from None
    missing = [name for name in columns if name not in frame]
    if missing or frame.empty:
        what = "the columns %s are missing" % ", ".join(missing) if missing else "there is no row"
        raise CcpError("%s: no figures of bench/fidelity: %s" % (path, what))
    return frame[list(columns)]


def medians(frame: pd.DataFrame) -> pd.DataFrame:
    """Each stack's figures of a case, over its runs: `NAME` is the median, `NAME_least` and `NAME_most` the range."""
    grouped = frame.groupby(KEY, sort=False)
    parts: List[pd.DataFrame] = []
    for name in (*FIGURES, "lost_after_5s"):
        found = grouped[name].agg(["median", "min", "max"])
        found.columns = pd.Index([name, name + "_least", name + "_most"])
        parts.append(found)
    return pd.concat(parts, axis=1)


def cells_of(frame: pd.DataFrame) -> List[Any]:
    """The cells (trace, queue, delay in ms) of the figures in order."""
    rows = frame[["trace", "queue", "delay_ms"]].drop_duplicates()
    return [tuple(row) for row in rows.itertuples(index=False)]
