"""The programs of a comparison's senders: what `ccp` refuses in their files, and what is likely meant otherwise."""
from __future__ import annotations

import re
from pathlib import Path
from typing import Dict, List, Mapping

from ..errors import CcpError
from ..explain.command import Given, explained
from ..explain.findings import Finding, Text


def check(files: Mapping[str, str], texts: Mapping[str, str], path: Path) -> List[str]:
    """The warnings of programs, each with its file and place. `files` and `texts` have the programs by their names.
    A program that `ccp` refuses is a CcpError with its file and place."""
    by_file: Dict[str, str] = {files[name]: text for name, text in texts.items()}
    warnings = []
    for file, text in by_file.items():
        is_refused, read, found = explained(path, Given(file, text.encode("utf-8", "surrogateescape")), "check")
        if is_refused:
            more = "`ccp explain %s` shows the line" % file
            raise CcpError("%s; %s" % (in_line(read, found[0]).rstrip("."), more))
        warnings += [in_line(read, one) for one in found]
    return warnings


def in_line(text: Text, found: Finding) -> str:
    """A finding in one line: its place, what it is, and what to do."""
    hint = ": " + found.hints[-1] if found.hints else ""
    what = re.sub(r" at [0-9]+:[0-9]+$", "", found.what)
    return "%s:%d:%d: %s%s" % (text.name, *text.place(found.start), what, hint)
