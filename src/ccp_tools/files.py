"""Reads files whole, and writes them, with errors that name the file and say what is wrong with it. A path `-` is
standard input."""
from __future__ import annotations

import codecs
import errno
import fcntl
import io
import os
import sys
from contextlib import contextmanager
from pathlib import Path
from typing import IO, Iterator, Union

from .errors import CcpError, cut

PathLike = Union[str, Path]

# the most bytes of a file that is read whole: a longer one, or one without an end, would take all memory
MOST_BYTES = 1 << 30
PIECE = 1 << 20

# how a file system says that it has no locks
NO_LOCKS = (errno.ENOLCK, errno.ENOSYS, errno.ENOTSUP, errno.EOPNOTSUPP)

# what files begin with that people take for texts
BEGINNINGS = [
    (codecs.BOM_UTF16_LE, "UTF-16 text"),
    (codecs.BOM_UTF16_BE, "UTF-16 text"),
    (b"\x1f\x8b", "compressed by gzip"),
    (b"\xfd7zXZ\x00", "compressed by xz"),
    (b"BZh", "compressed by bzip2"),
    (b"PK\x03\x04", "a zip archive"),
    (b"\x7fELF", "a program"),
    (b"%PDF", "a PDF"),
    (b"\x89PNG", "a PNG picture"),
    (b"\xd4\xc3\xb2\xa1", "a pcap recording"),
    (b"\xa1\xb2\xc3\xd4", "a pcap recording"),
    (b"\x4d\x3c\xb2\xa1", "a pcap recording"),
    (b"\x0a\x0d\x0d\x0a", "a pcapng recording"),
]


def name_of(path: PathLike) -> str:
    """How a message names a file."""
    return "standard input" if str(path) == "-" else cut(str(path))


def what_is(data: bytes) -> str | None:
    """What a file is that is no text, by its first bytes; None where they don't say it."""
    for beginning, what in BEGINNINGS:
        if data.startswith(beginning):
            return what
    return "binary data" if b"\0" in data[:4096] else None


def read_bytes(path: PathLike, most: int = MOST_BYTES) -> bytes:
    """The bytes of a file. One that can't be read, as a folder, or that has more than `most` bytes is a CcpError."""
    file = open_bytes(path)
    try:
        data = file.read(PIECE)
        # a short file takes no more memory than it needs
        return checked_length(data + file.read(most) if len(data) == PIECE else data, path, most)
    except OSError as error:
        raise CcpError("%s: %s" % (name_of(path), reason_of(error))) from None
    finally:
        if str(path) != "-":
            file.close()


def checked_length(data: bytes, path: PathLike, most: int = MOST_BYTES) -> bytes:
    """The bytes of a file. More than `most` are a CcpError."""
    if len(data) > most:
        raise CcpError("%s: it has more than %d bytes, the most that are read" % (name_of(path), most))
    return data


def reason_of(error: OSError) -> str:
    """The system's reason, as a message has it."""
    return (
        "it is a folder, and a file is expected"
        if isinstance(error, IsADirectoryError)
        else error.strerror or str(error)
    )


def text_of(data: bytes, path: PathLike) -> str:
    """The text of a file's bytes, which have to be UTF-8. Line ends stay as they are."""
    kind = what_is(data)
    if kind:
        raise CcpError("%s: it is %s, and a text in UTF-8 is expected" % (name_of(path), kind))
    try:
        return data.decode("utf-8-sig")
    except UnicodeDecodeError as error:
        line = data.count(b"\n", 0, error.start) + 1
        raise CcpError("%s:%d: byte 0x%02x isn't UTF-8" % (name_of(path), line, data[error.start])) from None


def read_text(path: PathLike) -> str:
    """The text of a file, which has to be UTF-8."""
    return text_of(read_bytes(path), path)


@contextmanager
def lines_of(path: PathLike) -> Iterator[IO[str]]:
    """The open text of a file, whose lines come one after another, so that a long one doesn't fill the memory. A file
    that is no text in UTF-8 is a CcpError."""
    file = open_bytes(path)
    try:
        kind = what_is(file.peek(16))
        if kind:
            raise CcpError("%s: it is %s, and a text in UTF-8 is expected" % (name_of(path), kind))
        text = io.TextIOWrapper(file, encoding="utf-8", newline="\n")
        try:
            yield text
        finally:
            text.detach()
    except UnicodeDecodeError:
        raise CcpError("%s: it isn't UTF-8" % name_of(path)) from None
    finally:
        if str(path) != "-":
            file.close()


def open_bytes(path: PathLike) -> io.BufferedReader:
    """An open file; one that can't be opened is a CcpError."""
    try:
        return sys.stdin.buffer if str(path) == "-" else open(path, "rb")  # type: ignore[return-value]
    except OSError as error:
        raise CcpError("%s: %s" % (name_of(path), reason_of(error))) from None
    except ValueError:  # a path with a byte 0
        raise CcpError("%r: no name of a file" % cut(str(path))) from None


class Begun:
    """An open file whose first bytes were read already."""

    def __init__(self, beginning: bytes, file: IO[bytes]) -> None:
        self.beginning, self.file = beginning, file

    def read(self, size: int = -1) -> bytes:
        """At most `size` bytes, or all where it is negative, the beginning first."""
        count = len(self.beginning) if size < 0 else size
        given, self.beginning = self.beginning[:count], self.beginning[count:]
        return given + self.file.read(size if size < 0 else size - len(given))


# ---- writing


@contextmanager
def named_errors(path: PathLike) -> Iterator[None]:
    """Has an error of the system inside be a CcpError that names the file at `path`."""
    try:
        yield
    except OSError as error:
        raise CcpError("%s: %s" % (name_of(path), reason_of(error))) from None


def write_text(path: PathLike, text: str) -> None:
    """Writes a text file; a path that can't be written is a CcpError."""
    write_bytes(path, text.encode("utf-8", "surrogateescape"))


def write_bytes(path: PathLike, data: bytes) -> None:
    """Writes a file; a path that can't be written is a CcpError."""
    with named_errors(path):
        Path(path).write_bytes(data)


def append_text(path: PathLike, text: str) -> None:
    """Adds a text to the end of a text file; a path that can't be written is a CcpError."""
    with named_errors(path), open(path, "a", encoding="utf-8", errors="surrogateescape") as file:
        file.write(text)


def replace_text(path: PathLike, text: str) -> None:
    """Writes a text file beside `path` and moves it there, so that the file is the old one or the new one whole."""
    path = Path(path)
    beside = path.with_name(path.name + ".new")
    with named_errors(path):
        try:
            beside.write_text(text, encoding="utf-8", errors="surrogateescape")
            os.replace(beside, path)
        except OSError:
            beside.unlink(missing_ok=True)
            raise


# ---- folders


@contextmanager
def locked(folder: Path, name: str, what: str) -> Iterator[None]:
    """Keeps other processes out of a folder, which another one that has it refuses at once: a CcpError says that
    `what` uses it. The lock is the file `name` in the folder, which goes at the end. It belongs to this process alone,
    so neither a process that it begins nor one that was killed keeps it."""
    path = folder / name
    with named_errors(path):
        file = lock_file(path)
    if file is None:
        raise CcpError(
            "%s: another %s uses this folder: wait for its end, or name another folder" % (name_of(folder), what)
        )
    try:
        yield
    finally:
        path.unlink(missing_ok=True)
        os.close(file)


def lock_file(path: Path) -> int | None:
    """The locked file at a path, or None where another process has the lock. A link is never followed. On a file
    system without locks the file is there all the same."""
    while True:
        file = os.open(path, os.O_RDWR | os.O_CREAT | os.O_NOFOLLOW, 0o666)
        try:
            fcntl.lockf(file, fcntl.LOCK_EX | fcntl.LOCK_NB)
            # the process that had it may have removed it meanwhile
            if os.path.samestat(os.fstat(file), os.stat(path, follow_symlinks=False)):
                return file
        except (BlockingIOError, PermissionError):
            os.close(file)
            return None
        except FileNotFoundError:
            pass
        except OSError as error:
            if error.errno in NO_LOCKS:
                return file
            os.close(file)
            raise
        os.close(file)
