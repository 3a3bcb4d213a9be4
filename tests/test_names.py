"""Names in messages: of a long one the beginning and the end."""
from __future__ import annotations

from pathlib import Path
from typing import List

import pytest
from inside import run_inside
from support import TRACES, needs

from ccp_tools.errors import MOST_SHOWN, cut, one_line

# longer than the name of a file may be
LONG = ["x" * 300, "/".join(["y" * 300] * 9), "\u20ac" * 300]
COMPARE = [TRACES[0], "--senders", "reno", "--seconds", "0.1"]
WORDS: List[List[object]] = [
    ["compare", "NAME", "--senders", "reno", "--out", "OUT"],
    ["compare", "NAME.toml", "--out", "OUT"],
    ["compare", TRACES[0], "--senders", "m=NAME", "--out", "OUT"],
    ["compare", TRACES[0], "--senders", "m=NAME.py", "--out", "OUT"],
    ["compare", *COMPARE, "--out", "NAME"],
    ["compare", *COMPARE, "--out", "OUT", "--ccp", "NAME"],
    ["compare", *COMPARE, "--out", "OUT", "--measured", "NAME"],
    ["compare", *COMPARE, "--out", "OUT", "--plots", "NAME"],
    ["over", "NAME"],
    ["over", "--ccp", "NAME", "/dev/null"],
    ["over", "--parts", "NAME", "/dev/null"],
    ["over", "--sshlogin", "NAME;", "/dev/null"],
    ["over", "--size", "NAME", "/dev/null"],
    ["over", "--NAME", "/dev/null"],
]


@needs("import matplotlib", "import pandas", "import jinja2", "parallel")
@pytest.mark.parametrize("words", WORDS, ids=lambda words: " ".join(map(str, words)).replace(str(TRACES[0]), "t"))
def test_a_long_name_is_cut(program: Path, tmp_path: Path, words: List[object]) -> None:
    for name in LONG:
        given = [str(word).replace("NAME", name).replace("OUT", str(tmp_path / "out")) for word in words]
        made = run_inside(*given)
        assert made.status in (1, 2) and made.errors.startswith("ccp %s: " % words[0]), made.errors
        assert made.errors.count("\n") == 1
        assert max(len(word.encode()) for word in made.errors.split()) <= MOST_SHOWN, made.errors


def test_what_is_shown_of_a_long_text() -> None:
    assert cut("x" * 200) == "x" * 200
    assert cut("a" * 150 + "b" * 150) == "a" * 98 + " .. " + "b" * 98
    assert len(cut("\u20ac" * 300).encode()) <= 200 and set(cut("\u20ac" * 300)) == set("\u20ac .")
    assert one_line("a\nb  c") == "a b  c"
