"""Signals that end a command: Ctrl-C, SIGTERM and SIGHUP. Each ends it with all that it has begun."""
from __future__ import annotations

import signal
import subprocess
import threading
from contextlib import contextmanager
from typing import Iterator, List, Optional, Sequence

INTERRUPTS = (signal.SIGINT, signal.SIGTERM, signal.SIGHUP)


class Ended(KeyboardInterrupt):
    """SIGTERM or SIGHUP. `status` is the exit status of a command that ends with it."""

    status = 143


@contextmanager
def caught_signals() -> Iterator[None]:
    """Has SIGTERM and SIGHUP raise Ended inside, where nothing else is said of them."""
    is_main = threading.current_thread() is threading.main_thread()
    caught = [number for number in INTERRUPTS[1:] if is_main and signal.getsignal(number) is signal.SIG_DFL]
    for number in caught:
        signal.signal(number, raise_ended)
    try:
        yield
    finally:
        for number in caught:
            signal.signal(number, signal.SIG_DFL)


def raise_ended(number: int, _: object) -> None:
    """The handler of signals that end a command."""
    ended = Ended()
    ended.status = 128 + number
    raise ended


@contextmanager
def without_interrupts() -> Iterator[None]:
    """Has the threads and processes that are begun inside take no interrupt. One that another thread takes wouldn't
    wake the main one, which waits for a process and alone can raise it."""
    before = signal.pthread_sigmask(signal.SIG_BLOCK, INTERRUPTS)
    try:
        yield
    finally:
        signal.pthread_sigmask(signal.SIG_SETMASK, before)


@contextmanager
def deferred_interrupts() -> Iterator[None]:
    """Has an interrupt of the main thread wait until the end of what is inside, and raises it there. A process that is
    begun inside takes interrupts as ever."""
    is_main = threading.current_thread() is threading.main_thread()
    handlers = {number: signal.getsignal(number) for number in INTERRUPTS if is_main}
    caught = {number: handler for number, handler in handlers.items() if callable(handler)}
    came: List[int] = []
    for number in caught:
        signal.signal(number, lambda number, _: came.append(number))
    try:
        yield
    finally:
        for number, handler in caught.items():
            signal.signal(number, handler)
        for one in came:
            signal.raise_signal(one)


def run_process(
    words: Sequence[str], given: bytes = b"", timeout: Optional[float] = None
) -> subprocess.CompletedProcess[bytes]:
    """What `subprocess.run` gives, with both outputs captured. Whatever ends it ends the process too, also an interrupt
    at the moment when the process begins, which would leave it to itself."""
    running = None
    try:
        with deferred_interrupts():
            running = subprocess.Popen(words, stdin=subprocess.PIPE, stdout=subprocess.PIPE, stderr=subprocess.PIPE)
        output, errors = running.communicate(given, timeout)
    except BaseException:
        if running is not None:
            with deferred_interrupts(), running:
                running.kill()
        raise
    return subprocess.CompletedProcess(words, running.returncode, output, errors)
