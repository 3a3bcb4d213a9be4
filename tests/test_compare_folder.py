"""The folder of `ccp compare`: it has the files of one comparison whole, and a user's own files stay as they are."""
from __future__ import annotations

import errno
import json
import os
import re
import resource
from pathlib import Path
from typing import Any, Dict, Iterator, List

import pytest
from inside import run_inside
from support import TRACES, Ran, needs, require

pytestmark = needs("import matplotlib", "import pandas", "import jinja2")
require("matplotlib")

from ccp_tools.compare.folder import written_names  # noqa: E402
from ccp_tools.result_folder import opened  # noqa: E402
from ccp_tools.errors import CcpError  # noqa: E402

ANY = re.compile("[a-z]+[.]txt|report.html|files.json")
OLD = {"a.txt": "old", "b.txt": "old", "report.html": "old"}
NEW = {"b.txt": "new", "c.txt": "new", "report.html": "new"}


def write_all(folder: Path, files: Dict[str, str]) -> None:
    """Writes files as a comparison does."""
    with opened(folder, ANY) as out:
        for name, text in files.items():
            out.write(name, text)
        out.keep()


def texts(folder: Path) -> Dict[str, str]:
    """The files of a folder, without the list of them."""
    return {path.name: path.read_text() for path in folder.iterdir() if path.name != "files.json"}


def in_a_process(work: Any) -> int:
    """Does some work in a process of its own, and returns the status with which it ends."""
    child = os.fork()
    if child == 0:
        try:
            work()
        finally:
            os._exit(0)
    return os.waitstatus_to_exitcode(os.waitpid(child, 0)[1])


def compare(out: Path, *words: object) -> Ran:
    return run_inside("compare", TRACES[0], "--senders", "reno", "--acks", 300, "--quiet", "--out", out, *words)


def test_a_comparison_that_fails_leaves_the_files_before(tmp_path: Path) -> None:
    out = tmp_path / "out"
    write_all(out, OLD)
    for folder, left in ((out, OLD), (tmp_path / "new", None)):
        with pytest.raises(CcpError, match="%s/c.txt is wrong" % folder), opened(folder, ANY) as room:
            room.write("b.txt", "new")
            raise CcpError("%s is wrong" % (room.room / "c.txt"))
        assert left is None and not folder.exists() or texts(folder) == left


def test_the_next_comparison_replaces_its_files_alone(tmp_path: Path) -> None:
    write_all(tmp_path, OLD)
    (tmp_path / "mine").write_text("mine")
    (tmp_path / "sub.txt").mkdir()
    with pytest.raises(CcpError, match="sub.txt: this command writes a file of this name"):
        write_all(tmp_path, NEW)
    (tmp_path / "sub.txt").rmdir()
    write_all(tmp_path, NEW)
    assert texts(tmp_path) == {**NEW, "mine": "mine"}
    assert json.loads((tmp_path / "files.json").read_text()) == sorted(NEW)


@pytest.mark.parametrize("moves", range(6))
def test_a_comparison_that_is_killed_in_the_moves_is_gone_on_with(
    tmp_path: Path, monkeypatch: pytest.MonkeyPatch, moves: int
) -> None:
    """At whatever move: the folder has the report with all that belongs to it or none, and the next one sees to it."""
    write_all(tmp_path, OLD)
    left: Iterator[int] = iter(range(moves))

    def killed(move: Any) -> Any:
        def moved(*words: Any, **options: Any) -> None:
            if next(left, None) is None:
                os._exit(9)
            move(*words, **options)

        return moved

    with monkeypatch.context() as patch:
        for name in ("rename", "replace"):
            patch.setattr(os, name, killed(getattr(os, name)))
        assert in_a_process(lambda: write_all(tmp_path, NEW)) == (9 if moves < 5 else 0)
    seen = {path.name: path.read_text() for path in tmp_path.iterdir() if path.is_file() and path.suffix != ".lock"}
    seen.pop("files.json")
    assert "report.html" not in seen or seen in (OLD, NEW), seen
    with opened(tmp_path, ANY):
        pass
    assert texts(tmp_path) == (NEW if moves else OLD)


def test_two_comparisons_in_one_folder(program: Path, tmp_path: Path) -> None:
    """The second one is refused at once, and the lock of one that is killed holds nobody up."""
    out = tmp_path / "out"
    begun, told = os.pipe()

    def hold() -> None:
        with opened(out, ANY):
            os.write(told, b"x")
            os.read(begun_again, 1)
            os._exit(9)

    begun_again, go = os.pipe()
    child = os.fork()
    if child == 0:
        hold()
    os.read(begun, 1)
    made = compare(out, "--ccp", "/none")
    os.write(go, b"x")
    os.waitpid(child, 0)
    assert made.status == 1 and made.errors.count("\n") == 1, made.errors
    assert made.errors.startswith("ccp compare: %s: another run uses this folder" % out)
    assert len(list(out.iterdir())) == 2
    write_all(out, NEW)
    assert texts(out) == NEW


def test_a_file_system_without_locks(tmp_path: Path, monkeypatch: pytest.MonkeyPatch) -> None:
    def no_lock(*_: object) -> None:
        raise OSError(errno.ENOLCK, "No locks available")

    monkeypatch.setattr("fcntl.lockf", no_lock)
    write_all(tmp_path, NEW)
    assert texts(tmp_path) == NEW


OWN = ["compare.toml", "metrics.csv", "bars-2.svg", "flows-fixed.svg", "files.json"]


@pytest.mark.parametrize("name", OWN)
@pytest.mark.parametrize("is_link", [False, True])
def test_a_file_of_the_user_is_named_before_anything_runs(tmp_path: Path, name: str, is_link: bool) -> None:
    precious = tmp_path / "precious"
    precious.write_text('{"mine": 1}')
    out = tmp_path / "out"
    out.mkdir()
    (out / name).symlink_to("../precious") if is_link else (out / name).write_text('{"mine": 1}')
    made = compare(out, "--ccp", "/none")
    assert made.status == 1 and made.errors.count("\n") == 1, made.errors
    assert made.errors.startswith("ccp compare: %s: this command writes a file of this name" % (out / name))
    assert (out / name).read_text() == precious.read_text() == '{"mine": 1}' and (out / name).is_symlink() == is_link
    assert os.listdir(out) == [name]


def test_a_link_in_the_place_of_a_listed_file_is_replaced(tmp_path: Path) -> None:
    write_all(tmp_path / "out", OLD)
    (tmp_path / "precious").write_text("mine")
    for name in ("a.txt", "b.txt"):
        (tmp_path / "out" / name).unlink()
        (tmp_path / "out" / name).symlink_to("../precious")
    write_all(tmp_path / "out", NEW)
    assert texts(tmp_path / "out") == NEW and (tmp_path / "precious").read_text() == "mine"


@pytest.mark.parametrize("text", ["", "[", '[\n "acks.t', "\0\0\0", '["../x", "", "..", "/etc/x"]'])
def test_a_damaged_list_counts_as_none(tmp_path: Path, text: str) -> None:
    (tmp_path / "out").mkdir()
    (tmp_path / "x").write_text("mine")
    (tmp_path / "out" / "files.json").write_text(text)
    write_all(tmp_path / "out", NEW)
    assert texts(tmp_path / "out") == NEW and (tmp_path / "x").read_text() == "mine"


def test_a_full_disk(program: Path, tmp_path: Path) -> None:
    """The first file that has no room is named, and the folder can be used again."""
    out = tmp_path / "out"
    write_all(out, {"report.html": "old"})
    soft, hard = resource.getrlimit(resource.RLIMIT_FSIZE)
    resource.setrlimit(resource.RLIMIT_FSIZE, (20_000, hard))
    try:
        made = compare(out, "--different-spans")
    finally:
        resource.setrlimit(resource.RLIMIT_FSIZE, (soft, hard))
    assert (made.status, made.errors) == (1, "ccp compare: %s/acks.txt: File too large\n" % out)
    assert texts(out) == {"report.html": "old"}
    write_all(out, NEW)
    assert texts(out) == NEW


def test_which_names_a_comparison_writes() -> None:
    few = written_names(["svg"], False, False, [])
    many = written_names(["svg", "pdf"], True, True, ["mine"])
    own: List[str] = ["groups.csv", "shared.json", "shared-t.txt", "shared-t-2.svg", "bars.pdf", "mine.drive"]
    for name in own + ["mine+2.drive"]:
        assert many.fullmatch(name) and not few.fullmatch(name), name
    for name in ("bars.svg", "scatter-2.svg", "flows-a.b-1.svg", "table.txt", "report.html"):
        assert many.fullmatch(name) and few.fullmatch(name), name
    for name in ("bars-mine.txt", "my.drive", "notes.txt", "x.svg", "mine.txt"):
        assert not many.fullmatch(name), name
