"""Machines for tests: hosts in network namespaces with servers of ssh, and a cluster of Slurm on this machine.

Everything that is started here is stopped and removed at the end, by the number of its process and by its own name."""
from __future__ import annotations

import contextlib
import os
import pwd
import shutil
import signal
import socket
import subprocess
import time
from dataclasses import dataclass
from pathlib import Path
from typing import Dict, Iterator, List

import pytest

BRIDGE, NET = "ccp-test", "10.99.7"

SERVER = """Port 22
ListenAddress {address}
HostKey {room}/host
AuthorizedKeysFile {room}/user.pub
PidFile none
StrictModes no
UsePAM no
PasswordAuthentication no
KbdInteractiveAuthentication no
PermitRootLogin prohibit-password
"""
CLIENT = """Host h1
HostName {net}.11
Host h2
HostName {net}.12
Host h3
HostName {net}.13
Host nowhere
HostName {net}.99
ConnectTimeout 2
Host *
User {user}
IdentityFile {room}/user
IdentitiesOnly yes
UserKnownHostsFile {room}/known
StrictHostKeyChecking accept-new
LogLevel ERROR
ServerAliveInterval 2
ServerAliveCountMax 2
"""


def ip(*words: str, check: bool = True) -> bool:
    """Runs `ip`, and says whether it ended well."""
    ran = subprocess.run(["ip", *words], stdin=subprocess.DEVNULL, stdout=subprocess.PIPE, stderr=subprocess.PIPE)
    if check and ran.returncode:
        raise RuntimeError("ip %s: %s" % (" ".join(words), ran.stderr.decode().strip()))
    return ran.returncode == 0


def found(name: str) -> str:
    """The path of a command, also of those that only root has on the PATH; a test without it is skipped."""
    path = shutil.which(name, path=os.environ.get("PATH", "") + ":/usr/sbin:/sbin")
    if path is None:
        if os.environ.get("CCP_STRICT") == "1":
            pytest.fail("%s isn't installed: tools/install --tests" % name, pytrace=False)
        pytest.skip("%s isn't installed" % name)
    return path


def stop(processes: List[subprocess.Popen[bytes]]) -> None:
    """Ends processes that were started here."""
    for process in processes:
        process.terminate()
    for process in processes:
        try:
            process.wait(10)
        except subprocess.TimeoutExpired:
            process.kill()
            process.wait()


# ---- hosts


@dataclass
class Hosts:
    """Three hosts: the command that reaches h1, h2 and h3, and the way to cut one off."""

    ssh: str

    def cut_off(self, number: int) -> None:
        """Takes the link of a host away."""
        ip("link", "set", "%s-%d" % (BRIDGE, number), "down")


@contextlib.contextmanager
def namespaces() -> Iterator[None]:
    """Three network namespaces on a bridge; a machine that doesn't allow them skips the test."""
    if os.geteuid() != 0 or not ip("link", "add", BRIDGE, "type", "bridge", check=False):
        pytest.skip("network namespaces need root and the right to make links")
    made: List[str] = []
    try:
        ip("addr", "add", NET + ".1/24", "dev", BRIDGE)
        ip("link", "set", BRIDGE, "up")
        for number in (1, 2, 3):
            name, outside, inside = (
                "%s-h%d" % (BRIDGE, number),
                "%s-%d" % (BRIDGE, number),
                "%s-in%d" % (BRIDGE, number),
            )
            ip("netns", "add", name)
            made.append(name)
            ip("link", "add", outside, "type", "veth", "peer", "name", inside, "netns", name)
            ip("link", "set", outside, "master", BRIDGE, "up")
            ip("-n", name, "addr", "add", "%s.1%d/24" % (NET, number), "dev", inside)
            ip("-n", name, "link", "set", inside, "up")
            ip("-n", name, "link", "set", "lo", "up")
        yield
    finally:
        for name in made:
            end_processes_in(name)
            ip("netns", "del", name, check=False)
        # a namespace goes later than its name, and its link with it
        for number in (1, 2, 3):
            ip("link", "del", "%s-%d" % (BRIDGE, number), check=False)
        ip("link", "del", BRIDGE, check=False)


def end_processes_in(namespace: str) -> None:
    """Ends what still runs in a namespace that was made here, as the sessions of a host that was cut off."""
    words = ["ip", "netns", "pids", namespace]
    found = subprocess.run(
        words, stdin=subprocess.DEVNULL, stdout=subprocess.PIPE, stderr=subprocess.DEVNULL, text=True
    )
    for number in found.stdout.split():
        with contextlib.suppress(ProcessLookupError):
            os.kill(int(number), signal.SIGKILL)


@contextlib.contextmanager
def privilege_folder() -> Iterator[None]:
    """The empty folder that sshd wants where root starts it; it's made and removed where the system has none."""
    is_made = not os.path.isdir("/run/sshd")
    if is_made:
        os.mkdir("/run/sshd", 0o755)
    try:
        yield
    finally:
        if is_made:
            os.rmdir("/run/sshd")


@contextlib.contextmanager
def three_hosts(room: Path, covered: Dict[int, tuple[Path, Path]] | None = None) -> Iterator[Hosts]:
    """Three hosts with servers of ssh and keys of their own. They share this machine's files; `covered` has a host on
    which a file shows another one: {3: (file, other)}."""
    server = found("sshd")
    for name in ("parallel", "rsync", "ssh", "ssh-keygen", "ip"):
        found(name)
    for name in ("host", "user"):
        words = ["ssh-keygen", "-q", "-t", "ed25519", "-N", "", "-f", str(room / name)]
        subprocess.run(words, check=True, stdin=subprocess.DEVNULL)
    user = pwd.getpwuid(os.getuid()).pw_name
    (room / "client.conf").write_text(CLIENT.format(net=NET, user=user, room=room))
    running: List[subprocess.Popen[bytes]] = []
    with privilege_folder(), namespaces():
        try:
            for number in (1, 2, 3):
                conf = room / ("server.%d" % number)
                conf.write_text(SERVER.format(address="%s.1%d" % (NET, number), room=room))
                words = "exec %s -D -q -f %s" % (server, conf)
                if covered and number in covered:
                    file, other = covered[number]
                    words = "mount --bind %s %s && %s" % (other, file, words)
                enter = ["ip", "netns", "exec", "%s-h%d" % (BRIDGE, number), "sh", "-c", words]
                running.append(subprocess.Popen(enter, stdin=subprocess.DEVNULL))
            hosts = Hosts("ssh -F %s" % (room / "client.conf"))
            wait_for(hosts.ssh)
            yield hosts
        finally:
            stop(running)


def wait_for(ssh: str) -> None:
    """Waits until all hosts answer; where they let nobody in, the system doesn't allow a login with these keys."""
    for host in ("h1", "h2", "h3"):
        until, errors = time.monotonic() + 60, ""
        while time.monotonic() < until and "denied" not in errors:
            words = [*ssh.split(" "), "-o", "BatchMode=yes", host, "true"]
            ran = subprocess.run(
                words, stdin=subprocess.DEVNULL, stdout=subprocess.PIPE, stderr=subprocess.PIPE, text=True
            )
            errors = ran.stderr
            if ran.returncode == 0:
                break
            time.sleep(0.2)
        else:
            pytest.skip("this system's sshd lets nobody in: %s" % errors.strip())


# ---- Slurm

SLURM = """ClusterName=ccp
SlurmctldHost={host}(127.0.0.1)
SlurmctldPort={port}
AuthType=auth/munge
AuthInfo=socket={room}/munge.socket
CryptoType=crypto/munge
SlurmUser={user}
SlurmdUser={user}
StateSaveLocation={room}/state
SlurmdSpoolDir={room}/spool.%n
SlurmctldPidFile={room}/ctld.pid
SlurmdPidFile={room}/slurmd.%n.pid
SlurmctldLogFile={room}/ctld.log
SlurmdLogFile={room}/slurmd.%n.log
ProctrackType=proctrack/linuxproc
TaskPlugin=task/none
JobAcctGatherType=jobacct_gather/none
AccountingStorageType=accounting_storage/none
SelectType=select/cons_tres
SelectTypeParameters=CR_CPU
ReturnToService=2
SlurmdTimeout=10
MpiDefault=none
NodeName=n1 NodeHostname={host} NodeAddr=127.0.0.1 Port={first} CPUs=1 State=UNKNOWN
NodeName=n2 NodeHostname={host} NodeAddr=127.0.0.1 Port={second} CPUs=1 State=UNKNOWN
PartitionName=all Nodes=n1,n2 Default=YES MaxTime=INFINITE State=UP
"""


def free_ports(count: int) -> List[int]:
    """Ports of the loopback that nobody uses."""
    with contextlib.ExitStack() as stack:
        sockets = [stack.enter_context(socket.socket()) for _ in range(count)]
        for one in sockets:
            one.bind(("127.0.0.1", 0))
        return [one.getsockname()[1] for one in sockets]


@dataclass
class Cluster:
    """A cluster of the nodes n1 and n2. `env` names its configuration to Slurm's commands."""

    env: Dict[str, str]

    def run(self, *words: str) -> str:
        """What a command of Slurm prints."""
        more = {**os.environ, **self.env}
        ran = subprocess.run(
            words, env=more, stdin=subprocess.DEVNULL, stdout=subprocess.PIPE, stderr=subprocess.STDOUT
        )
        return ran.stdout.decode("utf-8", "replace")

    def set_down(self, node: str) -> None:
        """Takes a node out; what ran there is queued again."""
        self.run("scontrol", "update", "nodename=" + node, "state=down", "reason=test")


@contextlib.contextmanager
def cluster(room: Path) -> Iterator[Cluster]:
    """A controller of Slurm with two nodes on this machine, and a munge of their own."""
    munged, controller, node = found("munged"), found("slurmctld"), found("slurmd")
    for name in ("sbatch", "squeue", "scontrol", "scancel"):
        found(name)
    ports = free_ports(3)
    host, user = socket.gethostname().partition(".")[0], pwd.getpwuid(os.getuid()).pw_name
    values = dict(room=room, host=host, user=user, port=ports[0], first=ports[1], second=ports[2])
    (room / "slurm.conf").write_text(SLURM.format(**values))
    (room / "munge.key").write_bytes(os.urandom(128))
    (room / "munge.key").chmod(0o400)
    room.chmod(0o755)
    (room / "state").mkdir()
    made = Cluster({"SLURM_CONF": str(room / "slurm.conf")})
    files = [
        word for name in ("key", "pid", "log", "seed") for word in ("--%s-file" % name, "%s/munge.%s" % (room, name))
    ]
    commands = [[munged, "-F", "-f", "--socket", str(room / "munge.socket"), *files]]
    commands.append([controller, "-D", "-f", str(room / "slurm.conf")])
    commands += [[node, "-D", "-N", name, "-f", str(room / "slurm.conf")] for name in ("n1", "n2")]
    running: List[subprocess.Popen[bytes]] = []
    try:
        with open(room / "output", "wb") as output:
            for words in commands:
                env = {**os.environ, **made.env}
                running.append(subprocess.Popen(words, stdin=subprocess.DEVNULL, stdout=output, stderr=output, env=env))
                time.sleep(1)
            until = time.monotonic() + 60
            while made.run("sinfo", "--noheader", "--format", "%D %t").strip() != "2 idle":
                if time.monotonic() > until:
                    pytest.skip("no cluster of Slurm starts here: %s" % made.run("sinfo").strip()[-200:])
                time.sleep(0.5)
            yield made
    finally:
        made.run("scancel", "--user", user)
        stop(running[::-1])
