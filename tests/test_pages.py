"""The commands of the pages for users that have no output below them: each of them ends well.

tools/check-docs runs those with `$`, and compares what they print. A block whose commands need what the repository
doesn't have, as a cluster, has a line `<!-- not run: REASON -->` above it."""
from __future__ import annotations

import re
import shutil
import sys
from pathlib import Path
from typing import Dict, List

import pytest
from support import REPOSITORY, needs, ran

from ccp_tools.tables import MODES

BLOCK = re.compile(r"^(<!-- not run: .+ -->\n)?```\w*\n(.*?)^```$", re.DOTALL | re.MULTILINE)
# the most seconds of a block; alone on a machine none takes ten
SECONDS = 300


def commands_of(page: Path) -> List[str]:
    """The blocks of a page with commands that tools/check-docs doesn't run, and before them each command that fills a
    folder."""
    found = []
    for mark, block in BLOCK.findall(page.read_text(encoding="utf-8")):
        if re.search(r"^\$ ", block, re.MULTILINE):
            found += re.findall(r"^\$ (\./ccp .* --out \S+)$", block, re.MULTILINE)
        elif "./ccp " in block and not mark and can_run(block):
            found.append(block)
    return [shortened(block) for block in found]


def can_run(block: str) -> bool:
    """Whether the tables have the modes of `drive` and a compiler of C is there, where a block uses them."""
    uses_drive = re.search(r"\./ccp drive|examples/agents/", block) is not None
    uses_compiler = re.search(r"^cc ", block, re.MULTILINE) is not None
    return ("drive" in MODES or not uses_drive) and (shutil.which("cc") is not None or not uses_compiler)


def shortened(block: str) -> str:
    """The commands with one second of each trace for `compare`, where they name no time: what is tried is that they
    run, and their figures are those of the pages' tables."""
    return re.sub(r"^(\./ccp compare (?!.*--seconds).*)$", r"\1 --seconds 1", block, flags=re.MULTILINE)


PAGES = [page for page in sorted((REPOSITORY / "docs").glob("*.md")) if commands_of(page)]


def room_of(tmp_path: Path, program: Path) -> Dict[str, str]:
    """Puts into a folder what the commands of the pages read, and gives the variables that they run with."""
    for name in ("examples", "tests"):
        (tmp_path / name).symlink_to(REPOSITORY / name)
    launcher = tmp_path / "ccp"
    launcher.write_text('#!/bin/sh\nexec "%s" "$@"\n' % (REPOSITORY / "ccp"))
    launcher.chmod(0o755)
    return {"CCP_PROGRAM": str(program), "CCP_PYTHON": sys.executable}


@needs("parallel", "import pandas", "import matplotlib")
@pytest.mark.parametrize("page", PAGES, ids=lambda page: page.stem)
def test_the_commands_of_a_page_end_well(page: Path, program: Path, tmp_path: Path) -> None:
    """They are run one after another, in a folder that has what they read."""
    env = room_of(tmp_path, program)
    for block in commands_of(page):
        done = ran(["bash", "-e", "-c", block], cwd=tmp_path, env=env, timeout=SECONDS)
        assert done.status == 0, "%s\n%s" % (block, done.errors)


@needs("import pandas", "import matplotlib")
def test_the_table_at_the_top_of_readme(program: Path, tmp_path: Path) -> None:
    """Its command prints these rows, with one more column."""
    page = (REPOSITORY / "README.md").read_text(encoding="utf-8")
    table = next(block for _, block in BLOCK.findall(page))
    line = re.search(r"^Rows of `(\./ccp compare [^`]+)`", page, re.MULTILINE)
    assert line and table.startswith("trace sender ")
    done = ran(["bash", "-c", line[1]], cwd=tmp_path, env=room_of(tmp_path, program), timeout=SECONDS)
    assert done.status == 0, done.errors
    assert [row.split()[:-1] for row in done.output.splitlines()[: table.count("\n")]] == [
        row.split() for row in table.splitlines()
    ]


@needs("import pandas", "import matplotlib")
def test_the_first_comparison_of_readme(program: Path, tmp_path: Path) -> None:
    """It needs no options, prints the first two rows of the table at the top, and says where its report is."""
    page = (REPOSITORY / "README.md").read_text(encoding="utf-8")
    blocks = [block for _, block in BLOCK.findall(page)]
    clone, install, first = blocks[1].splitlines()
    assert clone.startswith("git clone ") and install.startswith("tools/install ")
    done = ran(["bash", "-c", first], cwd=tmp_path, env=room_of(tmp_path, program), timeout=SECONDS)
    assert done.status == 0, done.errors
    *rows, last = done.output.splitlines()
    assert [row.split()[:-1] for row in rows] == [row.split() for row in blocks[0].splitlines()[:3]]
    assert last == "report: ccp-out/report.html" and (tmp_path / "ccp-out" / "report.html").is_file()


@needs("import pandas", "import matplotlib")
def test_the_own_comparison_of_readme(program: Path, tmp_path: Path) -> None:
    """Its commands make the report of a trace."""
    page = (REPOSITORY / "README.md").read_text(encoding="utf-8").partition("**Your own comparison**")[2]
    lines = BLOCK.findall(page)[0][1].splitlines()
    assert lines[0].startswith("./ccp trace info my.trace ") and lines[-1] == "xdg-open out/report.html"
    (tmp_path / "my.trace").write_bytes((REPOSITORY / "examples" / "traces" / "wave.trace").read_bytes())
    block = shortened("\n".join(lines[:-1]))
    done = ran(["bash", "-e", "-c", block], cwd=tmp_path, env=room_of(tmp_path, program), timeout=SECONDS)
    assert done.status == 0 and (tmp_path / "out" / "report.html").is_file(), done.errors
