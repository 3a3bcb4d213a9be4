"""A running `ccp drive` at the other end of two pipes, over which bytes and frames go."""
from __future__ import annotations

import os
import select
import subprocess
from contextlib import suppress
from pathlib import Path
from typing import List, Optional, Union

from ..errors import CcpError, NoProgram
from ..program import find_program
from ..tables import LIMITS
from .errors import Ended, Silent

# bytes that are read at once
PIECE = 1 << 16
HEAD = 16
# how long a program that has closed its output may take to end, in seconds
LEAVING = 60.0
# the longest timeout in seconds: poll() has no more milliseconds
LONGEST_TIMEOUT = 2_000_000


def checked_timeout(seconds: Optional[float]) -> Optional[float]:
    """A timeout in seconds, or None. What is neither is a CcpError."""
    # a comparison with NaN never holds
    if seconds is None or 0 < seconds <= LONGEST_TIMEOUT:
        return seconds
    raise CcpError("the timeout is %g: seconds above 0 and at most %d are expected" % (seconds, LONGEST_TIMEOUT))


def broken(error: OSError) -> CcpError:
    """The error of a pipe that fails, as where an agent has closed it."""
    return CcpError("the pipes to ccp drive failed: %s" % (error.strerror or error))


class Pipes:
    """A running program, by its words. `timeout` is how many seconds it may be silent; None waits for ever. `is_closed`
    says whether its input was ended."""

    def __init__(self, words: List[str], timeout: Optional[float] = None) -> None:
        self.timeout = timeout
        try:
            self._process = subprocess.Popen(
                words, stdin=subprocess.PIPE, stdout=subprocess.PIPE, stderr=subprocess.PIPE, bufsize=0
            )
        except OSError as error:
            raise NoProgram("%s: %s" % (words[0], error.strerror)) from None
        assert self._process.stdin and self._process.stdout and self._process.stderr
        self._input, self._output = self._process.stdin.fileno(), self._process.stdout.fileno()
        # a write never waits for a program that itself waits until its output is read
        os.set_blocking(self._input, False)
        self._poll = select.poll()
        self._poll.register(self._output, select.POLLIN)
        self._held = b""
        self._at = 0
        self.is_closed = False

    @property
    def pid(self) -> int:
        """The number of the process."""
        return self._process.pid

    # ---- bytes

    def write(self, data: bytes) -> None:
        """Writes bytes to the program. Where it has closed its input, that is Ended."""
        if self.is_closed:
            raise CcpError("the input of ccp drive is closed: the session has ended it")
        try:
            written = self._written(data)
            while written < len(data):
                self._wait_for_room()
                written += self._written(data[written : written + PIECE])
        except BrokenPipeError:
            raise self.ended("ccp drive has closed its input") from None
        except OSError as error:
            raise broken(error) from None

    def _written(self, data: bytes) -> int:
        try:
            return os.write(self._input, data)
        except BlockingIOError:
            return 0

    def _wait_for_room(self) -> None:
        """Waits until the program reads on. What it writes meanwhile is kept."""
        poll = select.poll()
        poll.register(self._input, select.POLLOUT)
        poll.register(self._output, select.POLLIN)
        found = dict(poll.poll(self._milliseconds()))
        if not found:
            raise self._silence()
        if self._output in found:
            piece = os.read(self._output, PIECE)
            self._held += piece
            if not piece:
                raise self.ended("ccp drive has closed its output")

    def _milliseconds(self) -> Optional[float]:
        return None if self.timeout is None else 1000 * self.timeout

    def _silence(self) -> Silent:
        what = "nothing came from ccp drive within %g s; it waits as long as the frame that it was sent isn't whole"
        return Silent(what % (self.timeout or 0))

    def _more(self) -> bool:
        """Reads more of the output; False at its end."""
        if self.timeout is not None and not self._poll.poll(self._milliseconds()):
            raise self._silence()
        try:
            piece = os.read(self._output, PIECE)
        except OSError as error:
            raise broken(error) from None
        self._held, self._at = (self._held[self._at :] + piece if self._at < len(self._held) else piece), 0
        return bool(piece)

    # ---- frames

    def frame(self) -> bytes:
        """The next frame that the program writes. Where it has ended, that is Ended."""
        while True:
            rest = len(self._held) - self._at
            if rest >= HEAD:
                length = int.from_bytes(self._held[self._at + 12 : self._at + HEAD], "little")
                if not HEAD <= length <= LIMITS["frame_bytes"]:
                    raise CcpError("ccp drive wrote what is no frame: it would have %d bytes" % length)
                if rest >= length:
                    begin, self._at = self._at, self._at + length
                    return self._held[begin : self._at]
            if not self._more():
                raise self.ended("ccp drive ended while the session waited for it")

    def rest(self) -> bytes:
        """What is left of the output, up to its end."""
        while self._more():
            pass
        made, self._held = self._held[self._at :], b""
        return made

    # ---- the end

    def end_input(self) -> None:
        """Closes the program's input."""
        assert self._process.stdin
        self.is_closed = True
        try:
            self._process.stdin.close()
        except OSError as error:
            raise broken(error) from None

    def status(self) -> int:
        """The program's exit status, once it ends."""
        try:
            return self._process.wait(LEAVING)
        except subprocess.TimeoutExpired:
            self.kill()
            raise CcpError("ccp drive has closed its output and doesn't end") from None

    def line(self) -> str:
        """What the ended program wrote on standard error."""
        assert self._process.stderr
        try:
            return "" if self._process.stderr.closed else self._process.stderr.read().decode("utf-8", "replace")
        except OSError:
            return ""

    def ended(self, when: str) -> Ended:
        """The error of a program that has ended on its own."""
        status = self.status()
        made = Ended(status, self.line(), when)
        self.close()
        return made

    def kill(self) -> None:
        """Ends the program at once."""
        if self._process.poll() is None:
            self._process.kill()
        self._process.wait()

    def close(self) -> None:
        """Closes the pipes, and ends the program where it still runs."""
        self.is_closed = True
        self.kill()
        for stream in (self._process.stdin, self._process.stdout, self._process.stderr):
            if stream and not stream.closed:
                # the agent may have closed the descriptor
                with suppress(OSError):
                    stream.close()


def drive_words(program: Union[str, Path, None]) -> List[str]:
    """The words that begin `ccp drive`."""
    return [str(find_program(program)), "drive"]
