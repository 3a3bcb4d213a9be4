"""The cases by the TCP of this machine's kernel: two network namespaces, with an emulated link between them.

It needs Linux, root, `ip` (iproute2), /dev/net/tun and a C++ compiler. The processes of a run have a real-time
priority, since an emulator in real time is only as good as it is on time: on a machine with other processes on all
processors packets left 0.02 ms late in the mean with it. Each run keeps how late they left, and a run that was late is
made again. On `train`, where the kernel takes back the cut of its timer after a gap, Reno had 16.0 Mbit/s in runs that
were 0.1 ms late in the mean, 14.6 in one of 3 ms, and 10.9 in one of 12 ms (a queue of 100 packets, 20 ms)."""

from __future__ import annotations

import itertools
import os
import platform
import shutil
import subprocess
import sys
import time
from contextlib import ExitStack, contextmanager, suppress
from pathlib import Path
from typing import Any, Dict, Iterator, List, Sequence, Tuple

from ccp_tools.errors import CcpError

from .build import compiled
from .cases import SEGMENT_BYTES, Case, Group, Outcome
from .logs import acknowledgements, kept, read_log, read_windows, write_losses

HERE = Path(__file__).resolve().parent
ADDRESSES = ("10.9.0.1", "10.9.0.2")
PORT = 5001
# the first window is that of an agent of ccp, every segment is acknowledged, and no buffer limits the window
ROUTE = "initcwnd 3 quickack 1 initrwnd 1000"
SETTINGS = {
    "tcp_rmem": "4096 16000000 64000000",
    "tcp_wmem": "4096 16000000 64000000",
    "tcp_no_metrics_save": "1",
}
QUEUE_OF_DEVICE = 10_000
MTU = SEGMENT_BYTES + 52
# how much longer than its segments at one a millisecond a run may take
PATIENCE = 24
# a run whose packets left later than this in the mean is made again, so often at most
LATEST_US = 300
TRIES = 3
# how long after it is started a flow begins, by which all are connected
BEGIN_NS = 500_000_000
# of the runs of this process, for names that no two have
NUMBERS = itertools.count()


def missing() -> str:
    """Why this machine can't run the cases, or an empty text."""
    if sys.platform != "linux" or os.geteuid():
        return "it needs Linux and root"
    if shutil.which("ip") is None:
        return "ip isn't installed (iproute2)"
    if not os.access("/dev/net/tun", os.R_OK | os.W_OK):
        return "/dev/net/tun isn't there"
    return ""


def identity() -> str:
    """Which kernel it is."""
    return "Linux " + platform.release()


def build(folder: Path) -> Path:
    """The emulator, compiled into a folder."""
    return compiled(HERE / "emulator.cc", folder)


def done(words: List[str]) -> None:
    """Runs a command that has to succeed."""
    ran = subprocess.run(words, stdout=subprocess.DEVNULL, stderr=subprocess.PIPE, text=True)
    if ran.returncode:
        raise CcpError("%s: %s" % (" ".join(words), ran.stderr.strip()))


@contextmanager
def namespaces(tag: str) -> Iterator[List[str]]:
    """Two network namespaces, which are removed afterwards."""
    names = ["fidelity-%s-%s" % (tag, side) for side in "ab"]
    with ExitStack() as stack:
        for name in names:
            done(["ip", "netns", "add", name])
            stack.callback(done, ["ip", "netns", "del", name])
        yield names


@contextmanager
def process(words: List[str], **options: Any) -> Iterator[subprocess.Popen[str]]:
    """A process that is ended afterwards."""
    with subprocess.Popen(words, text=True, stdout=subprocess.PIPE, **options) as made:
        try:
            yield made
        finally:
            if made.poll() is None:
                made.terminate()


def configure(name: str, device: str, own: str, peer: str) -> None:
    """Puts a device into a namespace, with its address and the route to the other end."""
    inside = ["ip", "netns", "exec", name]
    done(["ip", "link", "set", device, "netns", name])
    done([*inside, "ip", "address", "add", own + "/24", "dev", device])
    size = ["txqueuelen", str(QUEUE_OF_DEVICE), "mtu", str(MTU)]
    done([*inside, "ip", "link", "set", device, *size, "up"])
    done([*inside, "ip", "route", "add", peer + "/32", "dev", device, "src", own, *ROUTE.split()])
    for setting, value in SETTINGS.items():
        done([*inside, "sysctl", "-q", "-w", "net.ipv4.%s=%s" % (setting, value)])


def awaited(one: subprocess.Popen[str], what: str) -> None:
    """Waits for the line `ready` of a process."""
    line = one.stdout.readline() if one.stdout else ""
    if line.strip() != "ready":
        raise CcpError("%s doesn't start" % what)


def run(case: Case, folder: Path, number: int = 1) -> Outcome:
    """Runs a case in real time. What it gave is kept in the folder, and a run that is there isn't repeated."""
    place = str(folder / ("linux-%s-%d" % (case.name, number)))
    log, windows = Path(place + ".log"), Path(place + ".windows")
    said = kept(Path(place + ".summary"), case, lambda: punctual(case, folder, log, windows))
    notes = summary(said, case)
    begin = notes.pop("begin_ns")
    acks = acknowledgements(read_log(log), case)
    return Outcome(case, "linux", case.algorithm, acks, read_windows(windows, begin, 1e-9), number, notes)


def punctual(case: Case, folder: Path, log: Path, windows: Path) -> str:
    """What the emulator prints of a run that was on time, or of the last try."""
    said = ""
    for _ in range(TRIES):
        said = printed(case, folder, log, windows)
        if summary(said, case)["late_mean_us"] <= LATEST_US:
            break
    return said


def printed(case: Case, folder: Path, log: Path, windows: Path) -> str:
    """Runs a case, and gives what the emulator prints at the end."""
    words = [str(case.trace_path), str(case.queue), str(1000 * case.delay_ms), str(case.segments), str(log)]
    if case.losses:
        words.append(str(write_losses(case, log)))
    return emulated(words, folder, [(case.algorithm, windows)], PATIENCE * case.segments / 1000, case.name)


def run_group(group: Group, log: Path) -> float:
    """Runs flows that share a link, and gives how late packets left in the mean, in microseconds. A late run is made
    again, and one whose log is there isn't."""
    delays = ",".join(str(1000 * delay_ms) for _, delay_ms in group.flows)
    words = [str(group.trace_path), str(group.queue), delays, "%ds" % group.seconds, str(log)]
    streams = [(algorithm, Path(os.devnull)) for algorithm, _ in group.flows]

    def tried() -> str:
        for _ in range(TRIES):
            said = emulated(words, log.parent, streams, 3 * group.seconds, group.name)
            if summary(said, group)["late_mean_us"] <= LATEST_US:
                break
        return said

    return summary(kept(log.with_suffix(".summary"), group, tried), group)["late_mean_us"]


def run_ahead() -> None:
    """Has what this thread starts run ahead of all other processes, so that a busy machine doesn't make it late."""
    with suppress(OSError):
        os.sched_setscheduler(0, os.SCHED_FIFO, os.sched_param(1))


def emulated(words: List[str], folder: Path, streams: Sequence[Tuple[str, Path]], longest: float, name: str) -> str:
    """Runs flows over the emulator, whose words after the devices are given: each with its sender of the kernel and the
    file that gets its windows. Gives what the emulator prints at the end."""
    number = next(NUMBERS)
    devices = ["fid%d%s%d" % (os.getpid(), side, number) for side in "ab"]
    run_ahead()
    stream = [sys.executable, str(HERE / "stream.py")]
    with ExitStack() as stack:
        names = stack.enter_context(namespaces("%d-%d" % (os.getpid(), number)))
        emulator = stack.enter_context(process([str(build(folder)), *devices, *words]))
        awaited(emulator, "the emulator")
        for space, device, own, peer in zip(names, devices, ADDRESSES, reversed(ADDRESSES)):
            configure(space, device, own, peer)
        inside = [["ip", "netns", "exec", space] for space in names]
        ports = [str(PORT + flow) for flow in range(len(streams))]
        for port in ports:
            awaited(stack.enter_context(process([*inside[1], *stream, "receive", ADDRESSES[1], port])), "the receiver")
        begin = str(time.monotonic_ns() + BEGIN_NS * len(streams))
        for port, (sender, windows) in zip(ports, streams):
            stack.enter_context(process([*inside[0], *stream, "send", ADDRESSES[1], port, sender, str(windows), begin]))
        try:
            said = emulator.communicate(timeout=longest)[0]
        except subprocess.TimeoutExpired:
            raise CcpError("case %s isn't done after %g s" % (name, longest)) from None
    return said


def summary(text: str, case: Case | Group) -> Dict[str, float]:
    """What the emulator says when it ends."""
    try:
        found = {name: float(value) for name, value in (word.split("=") for word in text.split())}
        return {name: found[name] for name in ("begin_ns", "late_mean_us", "late_p95_us")}
    except (ValueError, KeyError):
        raise CcpError("case %s: the emulator ended early: %s" % (case.name, text.strip())) from None
