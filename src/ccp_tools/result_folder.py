"""The folder that --out names. A command makes its files in a folder within it, and moves them into place when all are
there: whatever ends it before leaves the files of the run before."""

from __future__ import annotations

import json
import os
import re
import shutil
import tempfile
from contextlib import ExitStack, contextmanager
from pathlib import Path
from typing import Callable, Iterator, List, Set

from .errors import CcpError
from .files import locked, name_of, named_errors, write_text
from .interrupts import deferred_interrupts

# the names of the files that a run wrote: the next one replaces these, and no others
MANIFEST = "files.json"
# what somebody who opens the folder looks at: where it is, all is there
REPORTS = {"report.html", "found.txt"}
LOCK = ".ccp.lock"
# folders with files that aren't in place yet: one that is being filled, and one that has all of a run
UNFINISHED, FINISHED = ".ccp-unfinished-", ".ccp-finished"
# the beginning of a list of files that a full disk or a killed run cut off
CUT_OFF = re.compile(r'[\s\0]*(\Z|\[\s*(\Z|"))')


class Folder:
    """The folder of a run, which no other one uses at the same time. `path` is the folder; `room` is the one
    within it where files are made."""

    def __init__(self, path: Path, room: Path) -> None:
        self.path = path
        self.room = room

    def write(self, name: str, text: str) -> None:
        """Writes a text as UTF-8 to a file."""
        write_text(self.room / name, text)

    def listed(self) -> Set[str]:
        """The names of the files that the run before wrote. A list that was cut off, as by a full disk, counts
        as none; a file of this name that is something else is a CcpError, since a user wrote it."""
        path = self.path / MANIFEST
        if not os.path.lexists(path):
            return set()
        if path.is_symlink() or not path.is_file():
            raise CcpError(yours(path))
        with named_errors(path):
            text = path.read_text("utf-8", "replace")
        try:
            names = json.loads(text)
        except ValueError:
            names = [] if CUT_OFF.match(text) else None
        if not isinstance(names, list) or not all(isinstance(name, str) for name in names):
            raise CcpError(yours(path))
        return {name for name in names if name == os.path.basename(name) and name not in ("", ".", "..")}

    def check(self, is_written: Callable[[str], object]) -> None:
        """Refuses a folder in which a file that this run writes is a user's own."""
        listed = self.listed()
        with named_errors(self.path):
            there = sorted(os.listdir(self.path))
        for name in there:
            is_listed = name in listed and not is_folder(self.path / name)
            if name != MANIFEST and is_written(name) and not is_listed:
                raise CcpError(yours(self.path / name))

    def keep(self) -> None:
        """Moves what was made into place, in the place of the files of the run before."""
        names = sorted(path.name for path in self.room.iterdir())
        self.check(names.__contains__)
        self.write(MANIFEST, json.dumps(names, indent=1) + "\n")
        with deferred_interrupts():
            # from here on the next run goes on with the moves, if this one is killed
            with named_errors(self.path):
                os.rename(self.room, self.path / FINISHED)
            move_finished(self)


def is_folder(path: Path) -> bool:
    """Whether a folder is at a path; a link to one is none."""
    return path.is_dir() and not path.is_symlink()


def yours(path: Path) -> str:
    """The line for a file that isn't overwritten."""
    what = "%s: this command writes a file of this name, and %s doesn't list it as one: move it, or name another folder"
    return what % (name_of(path), MANIFEST)


def move_finished(folder: Folder) -> None:
    """Moves the files of a finished run into place. A report goes first and comes last, so where it is its files are
    there too. What was cut off anywhere is done again."""
    finished = folder.path / FINISHED
    with named_errors(folder.path):
        made: List[str] = json.loads((finished / MANIFEST).read_text("utf-8"))
        waiting = {path.name for path in finished.iterdir()}
        old = folder.listed() - set(made)
        for name in [*sorted(waiting & REPORTS), *sorted(old)]:
            if not is_folder(folder.path / name):
                (folder.path / name).unlink(missing_ok=True)
        for name in sorted(waiting, key=lambda name: (name == MANIFEST, name in REPORTS, name)):
            os.replace(finished / name, folder.path / name)
        shutil.rmtree(finished)


def left_over(folder: Path) -> Iterator[Path]:
    """The folders of runs that were killed."""
    return (path for path in folder.glob(UNFINISHED + 8 * "?") if path.is_dir() and not path.is_symlink())


@contextmanager
def opened(path: Path, written: re.Pattern[str]) -> Iterator[Folder]:
    """The folder at a path for a run that may write the files `written`. It is made where there is none. A
    CcpError where another one uses it, or where a user's own file would be overwritten."""
    with named_errors(path):
        is_new = not path.exists()
    if not is_new and not path.is_dir():
        raise CcpError("%s is a file, and --out is a folder" % name_of(path))
    with ExitStack() as stack:
        with named_errors(path):
            path.mkdir(parents=True, exist_ok=True)
        if is_new:
            stack.callback(remove_empty, path)
        stack.enter_context(locked(path, LOCK, "run"))
        folder = Folder(path, path)
        if (path / FINISHED / MANIFEST).is_file():
            move_finished(folder)
        for room in left_over(path):
            shutil.rmtree(room, ignore_errors=True)
        folder.check(written.fullmatch)
        with named_errors(path):
            folder.room = Path(tempfile.mkdtemp(prefix=UNFINISHED, dir=path))
        stack.callback(shutil.rmtree, folder.room, ignore_errors=True)
        try:
            yield folder
        except CcpError as error:
            # the user knows the folder, and not the one within it
            error.args = (str(error).replace(str(folder.room), str(path)),)
            raise


def remove_empty(path: Path) -> None:
    """Removes a folder that got nothing."""
    try:
        path.rmdir()
    except OSError:
        pass
