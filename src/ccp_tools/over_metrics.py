"""Works out the metrics of parts of `ccp over` in one process, whose imports take longer than a part.

    main(["000000", "000001"])      # as part.sh calls it

Of each PART there are PART.json, PART.table, PART.timeline and PART.acks; it gets PART.half, what `ccp metrics` prints
of them, the errors in PART.error, and in the end PART.status, the exit status."""
from __future__ import annotations

from contextlib import redirect_stderr
from pathlib import Path
from typing import Sequence

from . import cli
from .files import write_text


def main(parts: Sequence[str]) -> int:
    """Works out the metrics of each part. The status is always 0: each part has its own."""
    for part in parts:
        texts = ["%s.%s" % (part, ending) for ending in ("json", "table", "timeline", "acks")]
        with open(part + ".error", "w", encoding="utf-8", errors="backslashreplace") as errors, redirect_stderr(errors):
            status = cli.main(["metrics", *texts, "--out", part + ".half"])
        write_text(Path(part + ".status"), "%d\n" % (1 if status else 0))
    return 0
