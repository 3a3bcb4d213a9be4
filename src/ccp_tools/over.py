"""Runs a scenario in parts over processors, machines or a cluster, and joins what they print.

    ccp over [OPTION].. SCENARIO > table
    ccp over --timeline | --acks | --metrics [OPTION].. SCENARIO > OUT
    ccp over --sshlogin 4/host,user@other [OPTION].. SCENARIO
    ccp over --slurm --parts FOLDER [--sbatch=OPTION].. [OPTION].. SCENARIO
    ccp over --resume --parts FOLDER [OPTION].. SCENARIO
    ccp over --split-only --parts FOLDER [OPTION].. SCENARIO
    ccp over --join --parts FOLDER [OPTION].. SCENARIO > OUT

SCENARIO is a file, or `-` for standard input, as `ccp scenario --whole` writes it: with any number of cases, bytes
and acknowledgements. Its cases are split into parts that one run takes: at most 1,024 cases and 1,048,576 bytes, and
but for the table at most 64 cases and 262,144 acknowledgements. Each part has the traces of its cases alone. What is
printed is byte for byte what one `ccp campaign`, `ccp timeline` or `ccp acks` without these limits would print.
--metrics prints the figures of all cases as `ccp metrics` does; they are worked out where the parts run, so no
acknowledgement travels.

Parts run here, one a processor, by GNU parallel. --sshlogin names machines as HOST, USER@HOST or `:` (this one), with
N/ before it for N parts at once; each needs the program at the path of --ccp, rsync, and `ssh HOST` without a password.
--ssh is a command of your own, which a shell runs as it stands. --slurm submits an array job; the folder of --parts and
the program have to be in a folder that all nodes share. Machines are tried first: one
that can't be reached is left out, and where the program has another SHA-256 than here nothing runs. So two versions
are never mixed.

For other schedulers --split-only runs nothing: it writes the parts, and FOLDER/commands.txt with a command for each.
Any machine that has the folder and the program runs them, in any order and at once. --join then prints the whole, or
names the parts that have no result.

A part whose run fails, as where a machine goes away, is run again, up to --tries times. A part that fails for good
loses nothing of the others: they are kept, and --resume runs the missing ones alone. What a failed run printed counts
for nothing, and a part that was run twice counts once. Standard error shows how many parts are done.

Exit status: 0; 3 where ccp refuses the scenario, with its line, in which cases have their numbers in SCENARIO; 1
where a part had no run that ended well, and for other failures; 2 for wrong arguments."""
from __future__ import annotations

import argparse
import hashlib
import os
import re
import shlex
import shutil
import sys
import tempfile
from contextlib import ExitStack
from pathlib import Path
from typing import List

from .arguments import add_ccp, warn, whole
from .errors import CcpError, UsageError, cut
from .files import locked, name_of, named_errors, read_bytes, write_text
from .over_runs import BEGUN, Folder, Job, Parallel, Progress, Runner, Slurm
from .parts import OUTPUTS, in_whole, parts_of, print_joined
from .program import find_program, note, processors

# the lock of a folder of parts
LOCK = ".ccp-over.lock"
# the commands of --split-only
COMMANDS = "commands.txt"
# a machine as GNU parallel takes it: its group, how many parts it runs at once, and this machine or a host of ssh
LOGIN = re.compile(r"(@[A-Za-z0-9_.-]+/)?([0-9]+/)?(:|[A-Za-z0-9_][A-Za-z0-9@._:-]*)")
# the packages of Debian that have the commands which runs need
PACKAGES = {"parallel": "parallel", "rsync": "rsync", "ssh": "openssh-client", "sbatch": "slurm-client"}


def add_arguments(parser: argparse.ArgumentParser) -> None:
    """Adds the arguments of `ccp over`."""
    parser.add_argument("scenario", metavar="SCENARIO", help="the scenario's file; - is standard input")
    outputs = parser.add_mutually_exclusive_group()
    for name in OUTPUTS:
        if name != "campaign":
            what = "the figures" if name == "metrics" else "the acknowledgements" if name == "acks" else "the timeline"
            outputs.add_argument(
                "--" + name, dest="output", action="store_const", const=name, help=what + ", not the table"
            )
    parser.set_defaults(output="campaign")
    add_ccp(parser)
    parser.add_argument("--parts", metavar="FOLDER", help="the folder that keeps the parts (one that goes at the end)")
    parser.add_argument("--resume", action="store_true", help="goes on with the parts in FOLDER, if there are any")
    alone = parser.add_mutually_exclusive_group()
    what = "only writes the parts, and a list of commands for another scheduler"
    alone.add_argument("--split-only", action="store_true", help=what)
    alone.add_argument("--join", action="store_true", help="only prints the whole of parts that others ran")
    parser.add_argument(
        "--size",
        type=whole(1, 1024),
        metavar="CASES",
        help="the most cases of a part, 1 to 1024 (a quarter of a processor's share)",
    )
    parser.add_argument(
        "--tries", type=whole(1, 1000), default=3, metavar="N", help="how often a part is run at most (3)"
    )
    parser.add_argument("--wire", action="store_true", help="the programs' Install frames first")
    add_machines(parser)


def add_machines(parser: argparse.ArgumentParser) -> None:
    """Adds the arguments that say where parts run."""
    machines = parser.add_argument_group("machines")
    machines.add_argument(
        "--sshlogin",
        action="append",
        default=[],
        metavar="LIST",
        help="machines, as GNU parallel takes them (this one alone)",
    )
    machines.add_argument(
        "--ssh", default="ssh", metavar="COMMAND", help="the command in place of ssh, as 'ssh -F FILE'"
    )
    machines.add_argument(
        "--jobs", metavar="N", help="runs at once on a machine, as GNU parallel takes it (one a processor)"
    )
    machines.add_argument("--slurm", action="store_true", help="runs the parts as an array job of Slurm")
    machines.add_argument(
        "--sbatch",
        action="append",
        default=[],
        metavar="OPTION",
        help="an option of sbatch, as --sbatch=--partition=short",
    )
    machines.add_argument(
        "--python",
        metavar="PATH",
        help="for --metrics: the Python with pandas where parts run (here this one, on other machines python3)",
    )


def run(arguments: argparse.Namespace) -> int:
    """Does what the arguments of `ccp over` ask for, and returns the exit status."""
    check(arguments)
    data = read_bytes(arguments.scenario)
    words = arguments.output + (" --wire" if arguments.wire else "")
    program = find_program(arguments.ccp)
    job = Job(data, words, program, hashlib.sha256(read_bytes(program)).hexdigest(), python_of(arguments))
    with ExitStack() as stack:
        folder = folder_of(arguments, job, stack)
        if arguments.split_only:
            write_commands(folder, arguments)
        else:
            run_in(folder, arguments, job)
    return 0


def write_commands(folder: Folder, arguments: argparse.Namespace) -> None:
    """Writes a command for each part that has no answer yet, and says what comes next."""
    left, path = folder.left(), folder.path / COMMANDS
    place = shlex.quote(str(folder.path))
    write_text(path, "".join("cd %s && sh part.sh %06d\n" % (place, at) for at in left))
    if not arguments.quiet:
        what = "ccp over: %d commands in %s; then `ccp over --join --parts %s ..` prints the whole"
        note(what % (len(left), name_of(path), name_of(folder.path)))


def run_in(folder: Folder, arguments: argparse.Namespace, job: Job) -> None:
    """Runs the parts in a folder. A temporary one goes, or stays where parts in it are worth it."""
    try:
        work(arguments, folder, job)
    except BaseException as error:
        # a refusal needs no second run, nor does an output that nobody reads to its end, as with `| head`; parts that
        # are done are worth keeping after anything else
        is_over = isinstance(error, BrokenPipeError) or isinstance(error, CcpError) and error.status == 3
        if folder.is_temporary and (is_over or not folder.count_done()):
            shutil.rmtree(folder.path, ignore_errors=True)
        elif folder.is_temporary:
            warn("the parts that are done are kept: `ccp over --resume --parts %s ..` goes on" % name_of(folder.path))
        raise
    if folder.is_temporary:
        shutil.rmtree(folder.path, ignore_errors=True)


def python_of(arguments: argparse.Namespace) -> str:
    """The Python of --python, else the one that runs this where all parts run here, else that of the machines' PATH."""
    is_here = not arguments.sshlogin and not arguments.slurm
    return str(arguments.python or (sys.executable if is_here else "python3"))


def check(arguments: argparse.Namespace) -> None:
    """Refuses arguments that don't go together, and commands that aren't installed, before anything is run."""
    check_alone(arguments)
    if arguments.slurm and (arguments.sshlogin or arguments.jobs):
        raise UsageError("--slurm and %s don't go together" % ("--sshlogin" if arguments.sshlogin else "--jobs"))
    if arguments.sbatch and not arguments.slurm:
        raise UsageError("--sbatch needs --slurm")
    if arguments.slurm and not arguments.parts:
        raise UsageError("--slurm needs --parts FOLDER, in a folder that all nodes share")
    if arguments.resume and not arguments.parts:
        raise UsageError("--resume needs --parts FOLDER, the folder of the run that it goes on with")
    if arguments.wire and arguments.output == "metrics":
        raise UsageError("--wire and --metrics don't go together")
    for login in logins_of(arguments):
        if not LOGIN.fullmatch(login):
            what = "--sshlogin %s: a machine is HOST, USER@HOST or :, with N/ before it for N parts at once"
            raise UsageError(what % cut(login))
    if arguments.split_only or arguments.join:
        return
    commands = ["sbatch"] if arguments.slurm else ["parallel"] + (["rsync", "ssh"] if arguments.sshlogin else [])
    for name in commands:
        if name != "ssh" and shutil.which(name) is None:
            raise CcpError("%s isn't installed: tools/install, or apt-get install %s" % (name, PACKAGES[name]))


def check_alone(arguments: argparse.Namespace) -> None:
    """Refuses what doesn't go together with --split-only and --join, which run nothing."""
    for name, is_given in (("--split-only", arguments.split_only), ("--join", arguments.join)):
        if is_given and not arguments.parts:
            raise UsageError("%s needs --parts FOLDER" % name)
        if is_given and (arguments.slurm or arguments.sshlogin or arguments.jobs):
            raise UsageError("%s runs nothing, so it has no --slurm, --sshlogin and --jobs" % name)


def logins_of(arguments: argparse.Namespace) -> List[str]:
    """The machines of --sshlogin."""
    return [login for logins in arguments.sshlogin for login in logins.split(",") if login]


def folder_of(arguments: argparse.Namespace, job: Job, stack: ExitStack) -> Folder:
    """The folder of the parts: the one of an earlier run, or a new one with its parts. It is this run's alone until
    the end of the stack."""
    path = Path(arguments.parts or tempfile.mkdtemp(prefix="ccp-over-"))
    with named_errors(path):
        if not arguments.join:
            path.mkdir(parents=True, exist_ok=True)
        elif not path.is_dir():
            raise CcpError("%s: there is no such folder" % name_of(path))
    if arguments.parts:
        stack.enter_context(locked(path, LOCK, "run of ccp over"))
    with named_errors(path):
        is_begun = (path / "run.json").exists()
        is_empty = not set(os.listdir(path)) - {LOCK} or (path / BEGUN).exists()
    if arguments.join and not is_begun:
        raise CcpError("%s has no parts of `ccp over --split-only`" % name_of(path))
    if is_begun and not (arguments.resume or arguments.join):
        what = "%s has the parts of an earlier run: --resume goes on with them, or name another folder"
        raise UsageError(what % name_of(path))
    folder = Folder(path.resolve(), not arguments.parts)
    if is_begun:
        folder.check(job)
    elif is_empty:
        size = arguments.size or max(1, -(-cases_of(job.data) // (4 * processors())))
        folder.begin(job, parts_of(job.data, arguments.output, size))
    else:
        raise UsageError("%s isn't empty: the parts need a folder of their own" % name_of(path))
    folder.prepare(job)
    return folder


def cases_of(data: bytes) -> int:
    """About how many cases a scenario has, for the size of a part."""
    return max(1, data.count(b'"delay_us"'))


def work(arguments: argparse.Namespace, folder: Folder, job: Job) -> None:
    """Runs the parts that aren't done, and prints the whole."""
    runner = runner_of(arguments, folder, job)
    if not folder.is_done() and not arguments.join:
        try:
            lost = runner.try_machines()
            if lost and not arguments.quiet:
                warn("left out, since they can't be reached: %s" % ", ".join(lost))
            with Progress(folder, arguments.quiet):
                runner.run()
        finally:
            runner.close()
    refusal = folder.refusal()
    if refusal:
        raise CcpError(in_whole(*refusal), 3)
    left = folder.left()
    if left:
        raise CcpError(failure_of(folder, left, runner))
    print_joined(arguments.output, folder.outputs(), folder.firsts())


def runner_of(arguments: argparse.Namespace, folder: Folder, job: Job) -> Runner:
    """What runs the parts."""
    if arguments.slurm:
        options: List[str] = [word for option in arguments.sbatch for word in shlex.split(option)]
        return Slurm(folder, job, arguments.tries, options)
    return Parallel(folder, job, arguments.tries, logins_of(arguments), arguments.ssh, arguments.jobs)


def failure_of(folder: Folder, left: List[int], runner: Runner) -> str:
    """The line that says which parts have no run that ended well, and why the first one has none."""
    first, end = folder.span(left[0])
    lost = "no result came, as where a machine went away or has no room"
    why = folder.error_of(left[0]) or runner.last_error or lost
    count = "%d of %d parts" % (len(left), folder.count)
    return "%s had no run that ended well, the first one with the cases %d to %d: %s" % (count, first, end - 1, why)
