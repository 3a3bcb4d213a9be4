"""Runs commands of the package in processes of their own that begin with the libraries, which take long to import.

A server, one for each process of pytest, has imported them, and forks for each command. It imports nothing of the
package, so each command still imports its own modules, reads its words and streams, and ends as a process does."""
from __future__ import annotations

import contextlib
import gc
import importlib
import json
import os
import runpy
import signal
import socket
import subprocess
import sys
import tempfile
from typing import Any, Dict, List, Optional, Sequence, Tuple

LIBRARIES = (
    "pandas",
    "matplotlib.figure",
    "matplotlib.backends.backend_agg",
    "matplotlib.backends.backend_svg",
    "jinja2",
)
# the most bytes of the words and the environment of a command
MOST_BYTES = 1 << 17


class Server:
    """The server, and the socket by which it gets commands."""

    def __init__(self, env: Dict[str, str]) -> None:
        self.own, theirs = socket.socketpair(socket.AF_UNIX, socket.SOCK_SEQPACKET)
        quiet = subprocess.DEVNULL
        with theirs:
            words = [sys.executable, __file__, str(theirs.fileno())]
            self.process = subprocess.Popen(
                words, stdin=quiet, stdout=quiet, pass_fds=[theirs.fileno()], env=env, start_new_session=True
            )

    def run(
        self, words: Sequence[str], data: bytes, env: Dict[str, str], cwd: str, timeout: Optional[float] = None
    ) -> Tuple[bytes, bytes, int]:
        """What `python3 -m ccp_tools WORDS ..` prints on both outputs, and its status as that of a process. One that
        takes more seconds than `timeout` is ended, and the server with it."""
        request = json.dumps({"words": list(words), "env": env, "cwd": cwd}).encode()
        with contextlib.ExitStack() as stack:
            given, output, errors = (stack.enter_context(tempfile.TemporaryFile()) for _ in range(3))
            given.write(data)
            given.seek(0)
            socket.send_fds(self.own, [request], [file.fileno() for file in (given, output, errors)])
            self.own.settimeout(timeout)
            try:
                status = self.own.recv(64)
            except socket.timeout:
                self.end()
                raise subprocess.TimeoutExpired(list(words), timeout or 0) from None
            if not status:
                raise RuntimeError("the server of commands has ended")
            output.seek(0)
            errors.seek(0)
            return output.read(), errors.read(), int(status)

    def end(self) -> None:
        """Ends the server and its command. The next command starts another one."""
        STARTED.remove(self)
        os.killpg(self.process.pid, signal.SIGKILL)
        self.process.wait()


STARTED: List[Server] = []


def server(env: Dict[str, str]) -> Server:
    """The server of this process, which ends with it; the first call starts it with an environment."""
    if not STARTED:
        STARTED.append(Server(env))
    return STARTED[0]


def serve(connection: socket.socket) -> Dict[str, Any]:
    """Forks for each command, and tells how it ended. It returns in the new process alone, with the command."""
    while True:
        request, descriptors, _, _ = socket.recv_fds(connection, MOST_BYTES, 3)
        if not request:
            sys.exit()
        number = os.fork()
        if number == 0:
            connection.close()
            for at, descriptor in enumerate(descriptors):
                os.dup2(descriptor, at)
                os.close(descriptor)
            command: Dict[str, Any] = json.loads(request)
            return command
        for descriptor in descriptors:
            os.close(descriptor)
        connection.send(b"%d" % os.waitstatus_to_exitcode(os.waitpid(number, 0)[1]))


def main(words: List[str]) -> None:
    """Serves at the socket of this number; in a new process it runs the command."""
    for name in LIBRARIES:
        with contextlib.suppress(ImportError):
            importlib.import_module(name)
    # what is imported stays, and is shared as long as nothing looks for garbage in it
    gc.freeze()
    command = serve(socket.socket(fileno=int(words[0])))
    os.environ.clear()
    os.environ.update(command["env"])
    os.chdir(command["cwd"])
    sys.argv[1:] = command["words"]
    sys.path[0] = command["cwd"]
    runpy.run_module("ccp_tools", run_name="__main__", alter_sys=True)


if __name__ == "__main__":
    main(sys.argv[1:])
