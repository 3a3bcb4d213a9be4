"""The runs of rows/ that read an input of a mode: each with its place, the mode, the input, and the refusal or None."""
from __future__ import annotations

import json
from pathlib import Path
from typing import Any, Container, Dict, Iterator, Optional, Tuple

from support import REPOSITORY, loaded


ROWS = loaded("rows")


class Known(ROWS.Known):  # type: ignore[misc,name-defined]
    """The named texts of a file of rows. What a row printed isn't known here, and is left empty."""

    def bytes_of(self, value: Any) -> bytes:
        if isinstance(value, dict) and tuple(value) in (("output_of",), ("after", "in")):
            return b""
        return bytes(super().bytes_of(value))


def rows_in(path: Path, known: Known) -> Iterator[Dict[str, Any]]:
    """The rows of a file; its named texts are kept in `known`."""
    for line in path.read_text(encoding="utf-8").split("\n"):
        if line.strip() and not line.startswith("#"):
            row = json.loads(line)
            if set(row) == {"text", "is"}:
                known.texts[row["text"]] = known.bytes_of(row["is"])
            else:
                yield row


def runs_of(modes: Container[str]) -> Iterator[Tuple[str, str, bytes, Optional[str]]]:
    """The runs of rows of some modes that end with status 0 or 3."""
    for path in sorted((REPOSITORY / "rows").glob("*.jsonl")):
        known = Known()
        for row in rows_in(path, known):
            status = row.get("status", 0)
            if ROWS.OF_STREAMS & set(row) or status not in (0, 3):
                continue
            for name, words, given in ROWS.runs_of(row, known):
                if words and isinstance(words[0], str) and words[0] in modes:
                    reason = known.bytes_of(row.get("errors", "")).decode()
                    refused = reason[len("ccp: input refused: ") : -1] if status == 3 else None
                    yield "%s: %s" % (path.name, name), words[0], given, refused
