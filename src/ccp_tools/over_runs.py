"""The runs of parts: the folder that keeps them, and what runs them: GNU parallel here and over ssh, or Slurm.

A part is FOLDER/000000.json and becomes FOLDER/000000.result by part.sh, on whatever machine. Everything that is
known of a run is in its folder, so one that was cut off can go on."""
from __future__ import annotations

import hashlib
import json
import os
import re
import shlex
import shutil
import signal
import subprocess
import sys
import tempfile
import threading
import time
import zipfile
from contextlib import suppress
from dataclasses import dataclass
from pathlib import Path
from typing import Any, Dict, List, Sequence, Tuple

from .errors import CcpError, UsageError, cut
from .files import named_errors, name_of, replace_text, write_text
from .interrupts import without_interrupts
from .parts import Part
from .program import processors

REFUSED = 3
SCRIPT = Path(__file__).with_name("part.sh")
# where it is, and no run.json, a run was cut off while it wrote its parts
BEGUN = ".ccp-over-begun"
# the most parts whose metrics one process works out
MOST_OF_PROCESS = 32
# the most bytes of what a failed run said
MOST_OF_AN_ERROR = 1000


@dataclass(frozen=True)
class Job:
    """What is run: a scenario's bytes, the mode with its options (or `metrics`), the program with its SHA-256, and the
    Python that works out metrics."""

    data: bytes
    words: str
    program: Path
    sha256: str
    python: str

    def manifest(self) -> Dict[str, str]:
        """What has to be the same where a run goes on."""
        return {"scenario": hashlib.sha256(self.data).hexdigest(), "words": self.words, "program": self.sha256}


# ---- the folder


@dataclass(frozen=True)
class Result:
    """What a run of a part printed, and its status."""

    status: int
    output: bytes
    errors: str


class Folder:
    """The folder of a run's parts."""

    def __init__(self, path: Path, is_temporary: bool) -> None:
        self.path = path
        self.is_temporary = is_temporary
        self.spans: List[Tuple[int, int]] = []
        self.known: Dict[int, int] = {}

    @property
    def count(self) -> int:
        """How many parts there are."""
        return len(self.spans)

    def begin(self, job: Job, parts: Sequence[Part]) -> None:
        """Writes the parts. The manifest comes last, so a folder that was cut off while it was written has none."""
        write_text(self.path / BEGUN, "")
        for at, part in enumerate(parts):
            write_text(self.file(at, "json"), part.text)
        if job.words == "metrics":
            with named_errors(self.path / "tools.pyz"):
                pack_tools(self.path / "tools.pyz")
        self.spans = [(part.first, part.end) for part in parts]
        replace_text(self.path / "run.json", json.dumps(dict(job.manifest(), parts=self.spans)) + "\n")
        (self.path / BEGUN).unlink()

    def prepare(self, job: Job) -> None:
        """Writes what runs a part, and what that gets: a file, so that no command line has words of the user."""
        replace_text(self.path / "part.sh", SCRIPT.read_text(encoding="utf-8"))
        words = {"program": str(job.program), "sha": job.sha256, "words": job.words, "python": job.python}
        lines = ["%s=%s\n" % (name, shlex.quote(word)) for name, word in words.items()]
        replace_text(self.path / "words.sh", "".join(lines))

    def check(self, job: Job) -> None:
        """Reads the manifest of an earlier run; one of another run is refused."""
        try:
            made = json.loads((self.path / "run.json").read_text(encoding="utf-8"))
            self.spans = [(int(first), int(end)) for first, end in made["parts"]]
            differing = [name for name, value in job.manifest().items() if made[name] != value]
        except (ValueError, KeyError, TypeError):
            raise CcpError("%s: no list of parts of `ccp over`" % name_of(self.path / "run.json")) from None
        names = {"scenario": "another scenario", "words": "another mode or --wire", "program": "another program"}
        if differing:
            what = " and ".join(names[name] for name in differing)
            raise UsageError(
                "%s has parts of a run with %s, which aren't mixed: name another folder" % (name_of(self.path), what)
            )

    def file(self, at: int, ending: str) -> Path:
        """A file of a part."""
        return self.path / ("%06d.%s" % (at, ending))

    def span(self, at: int) -> Tuple[int, int]:
        """The cases of a part."""
        return self.spans[at]

    def firsts(self) -> List[int]:
        """The first cases of the parts."""
        return [first for first, _ in self.spans]

    def result(self, at: int) -> Result | None:
        """What the last run of a part printed; None where there is no whole result."""
        try:
            data = self.file(at, "result").read_bytes()
        except OSError:
            return None
        head, _, rest = data.partition(b"\n")
        found = re.fullmatch(rb"ccp-part ([0-9]+) ([0-9]+)", head)
        if not found or len(rest) < int(found.group(2)):
            return None
        size = int(found.group(2))
        return Result(int(found.group(1)), rest[:size], rest[size:].decode("utf-8", "replace"))

    def has_answer(self, at: int) -> bool:
        """Whether a part has a run that ended well, or that `ccp` refused."""
        if self.known.get(at) is None:
            result = self.result(at)
            if result is None or result.status not in (0, REFUSED):
                return False
            self.known[at] = result.status
        return True

    def left(self) -> List[int]:
        """The parts without an answer."""
        return [at for at in range(self.count) if not self.has_answer(at)]

    def is_done(self) -> bool:
        """Whether all parts have answers."""
        return not self.left()

    def count_done(self) -> int:
        """How many parts have answers."""
        return self.count - len(self.left())

    def refusal(self) -> Tuple[str, int] | None:
        """The line of the first refusal, and the number of the first case of its part."""
        for at in range(self.count):
            if self.has_answer(at) and self.known[at] == REFUSED:
                result = self.result(at)
                line = result.errors.rstrip("\n") if result else ""
                return line.replace("ccp: ", "", 1), self.spans[at][0]
        return None

    def error_of(self, at: int) -> str:
        """Why the last run of a part failed, in one line."""
        result = self.result(at)
        return cut(" ".join(result.errors.split()), MOST_OF_AN_ERROR) if result else ""

    def outputs(self) -> List[Path]:
        """The files with what the parts printed."""
        for at in range(self.count):
            result = self.result(at)
            with named_errors(self.file(at, "out")):
                self.file(at, "out").write_bytes(result.output if result else b"")
        return [self.file(at, "out") for at in range(self.count)]


def pack_tools(path: Path) -> None:
    """Writes this package as one file that Python runs, so that every machine has the same version."""
    top = Path(__file__).parent
    with zipfile.ZipFile(path, "w", zipfile.ZIP_DEFLATED) as file:
        file.writestr("__main__.py", "import sys\nfrom ccp_tools.cli import main\nsys.exit(main(sys.argv[1:]))\n")
        for source in sorted(top.rglob("*")):
            if source.is_file() and "__pycache__" not in source.parts:
                file.write(source, Path("ccp_tools") / source.relative_to(top))


# ---- progress


class Progress:
    """Shows on standard error how many parts are done: in one line at a terminal, else a line at most each five
    seconds."""

    EACH_S = 5.0

    def __init__(self, folder: Folder, is_quiet: bool) -> None:
        self.folder = folder
        self.is_quiet = is_quiet
        self.ended = threading.Event()
        self.shower = threading.Thread(target=self.show, daemon=True)

    def __enter__(self) -> Progress:
        if not self.is_quiet:
            with without_interrupts():
                self.shower.start()
        return self

    def __exit__(self, *_: Any) -> None:
        self.ended.set()
        if not self.is_quiet:
            self.shower.join()

    def show(self) -> None:
        """Shows it until the runs have ended."""
        is_terminal = sys.stderr.isatty()
        shown, last = -1, 0.0
        while True:
            is_last = self.ended.wait(0.5)
            done = self.folder.count_done()
            if done != shown and (is_terminal or is_last or time.monotonic() - last >= self.EACH_S):
                shown, last = done, time.monotonic()
                line = "%d of %d parts done" % (done, self.folder.count)
                print(
                    "\r" + line if is_terminal else line, end="" if is_terminal else "\n", file=sys.stderr, flush=True
                )
            if is_last:
                if is_terminal:
                    print(file=sys.stderr)
                return


# ---- runners


class Runner:
    """What runs the parts of a folder that aren't done. `last_error` is the last line that it said of a failure."""

    def __init__(self, folder: Folder, job: Job, tries: int) -> None:
        self.folder = folder
        self.job = job
        self.tries = tries
        self.last_error = ""

    def try_machines(self) -> List[str]:
        """Tries whether the machines can run the program, and returns those that can't be reached and are left out. One
        that can't run it is a CcpError."""
        return []

    def run(self) -> None:
        """Runs the parts that aren't done."""
        raise NotImplementedError

    def close(self) -> None:
        """Ends what is left of the runs."""


class Parallel(Runner):
    """Runs by GNU parallel, here or over ssh. `logins` are machines as it takes them, none for this one alone."""

    def __init__(self, folder: Folder, job: Job, tries: int, logins: Sequence[str], ssh: str, jobs: str | None) -> None:
        super().__init__(folder, job, tries)
        self.logins = list(logins)
        self.ssh = ssh
        # a folder of a short name, since the path of a socket has at most 104 bytes
        self.sockets: Path | None = None
        self.jobs = jobs

    # -- trying machines

    def try_machines(self) -> List[str]:
        """Leaves out machines that can't be reached, returns them, and refuses one that has another program."""
        if not self.logins:
            return []
        found = self.asked_machines()
        lost = [login for login in self.logins if login not in found]
        if len(lost) == len(self.logins):
            raise CcpError("no machine can be reached: %s" % (self.last_error or ", ".join(lost)))
        for login, answer in found.items():
            if answer != self.job.sha256:
                if re.fullmatch(r"[0-9a-f]{64}", answer):
                    what = "has the SHA-256 %s there, and %s here" % (answer[:16], self.job.sha256[:16])
                    answer = "%s %s" % (name_of(self.job.program), what)
                raise CcpError("%s: %s" % (cut(login), cut(answer, MOST_OF_AN_ERROR)))
        self.logins = [login for login in self.logins if login in found]
        return lost

    def asked_machines(self) -> Dict[str, str]:
        """What each machine that can be reached answers: the SHA-256 of its program, or what it lacks."""
        asked = "set -- %s; " % " ".join(unseen(word) for word in [str(self.job.program), self.job.python])
        asked += '[ -x "$1" ] || { echo "= there is no program at $1"; exit 0; }; '
        if self.job.words == "metrics":
            asked += '"$2" -c "import pandas, scipy" 2>&1 || { echo "= $2 has no pandas and scipy"; exit 0; }; '
        asked += 'command -v rsync >/dev/null || { echo "= there is no rsync"; exit 0; }; '
        asked += 's=$(sha256sum < "$1"); echo "= ${s%% *}"'
        running = {login: self.start(login, asked) for login in self.logins}
        found = {}
        for login, process in running.items():
            output, errors = process.communicate()
            answers = [line[2:] for line in output.split("\n") if line.startswith("= ")]
            if answers:
                found[login] = answers[-1]
            elif errors.strip():
                self.last_error = cut(errors.strip().split("\n")[-1], MOST_OF_AN_ERROR)
        return found

    def start(self, login: str, asked: str) -> subprocess.Popen[str]:
        """Asks one machine something, by GNU parallel, which knows the forms of logins."""
        words = [
            "parallel",
            "--no-notice",
            "--will-cite",
            "--nonall",
            "--sshlogin",
            login,
            "--ssh",
            self.ssh_command(),
            asked,
        ]
        pipe, env = subprocess.PIPE, {**os.environ, "TMPDIR": plain_folder()}
        return subprocess.Popen(
            words, stdin=subprocess.DEVNULL, stdout=pipe, stderr=pipe, env=env, text=True, errors="replace"
        )

    def ssh_command(self) -> str:
        """The command for ssh. A machine that goes away is noticed after half a minute, none asks for a password, and
        the first connection to a machine serves all that follow."""
        words = shlex.split(self.ssh)
        if words and os.path.basename(words[0]) == "ssh":
            if self.sockets is None:
                self.sockets = Path(tempfile.mkdtemp(prefix="ccp-ssh-", dir=plain_folder()))
            words += ["-o", "ControlMaster=auto", "-o", "ControlPath=%s/%%C" % self.sockets, "-o", "ControlPersist=60"]
            words += ["-o", "BatchMode=yes", "-o", "ConnectTimeout=20"]
            words += ["-o", "ServerAliveInterval=10", "-o", "ServerAliveCountMax=3"]
        return " ".join(shlex.quote(word) for word in words)

    def close(self) -> None:
        """Ends the connections to the machines."""
        if self.sockets is None:
            return
        for path in self.sockets.iterdir():
            words = [*shlex.split(self.ssh), "-o", "ControlPath=%s" % path, "-O", "exit", "any"]
            subprocess.run(words, stdin=subprocess.DEVNULL, stdout=subprocess.DEVNULL, stderr=subprocess.DEVNULL)
        shutil.rmtree(self.sockets, ignore_errors=True)
        self.sockets = None

    # -- running

    def run(self) -> None:
        """Runs the parts that aren't done."""
        names = ["%06d.json" % at for at in self.folder.left()]
        words = [*self.command(), ":::", *names]
        pipe = subprocess.PIPE
        try:
            # a run on this machine among others finds the folder by the variable
            env = {**os.environ, "TMPDIR": plain_folder(), "CCP_OVER_FOLDER": str(self.folder.path)}
            running = subprocess.Popen(
                words, cwd=self.folder.path, env=env, stdin=subprocess.DEVNULL, stdout=subprocess.DEVNULL, stderr=pipe
            )
        except OSError as error:
            raise CcpError("parallel: %s" % error.strerror) from None
        errors = b""
        try:
            while running.returncode is None:
                # a reading within the library isn't interrupted where a line of parallel comes with the signal
                with suppress(subprocess.TimeoutExpired):
                    _, errors = running.communicate(timeout=1)
        except BaseException:
            end_runs(running)
            raise
        last = errors.decode("utf-8", "replace").strip().split("\n")[-1].strip()
        self.last_error = cut(last, MOST_OF_AN_ERROR)

    def command(self) -> List[str]:
        """GNU parallel's words. A part is sent with what it needs, and its result comes back alone. What parallel puts
        into the command is a part's name; all else of the user's is in words.sh, or in the environment."""
        words = ["parallel", "--no-notice", "--will-cite", "--retries", str(self.tries), "--halt", "never"]
        run = "sh part.sh {.}"
        if self.logins:
            files = ["{}", "part.sh", "words.sh"] + (["tools.pyz"] if self.job.words == "metrics" else [])
            words += ["--workdir", "...", "--cleanup", "--return", "{.}.result", "--ssh", self.ssh_command()]
            words += [word for name in files for word in ("--transferfile", name)]
            words += [word for login in self.logins for word in ("--sshlogin", login)]
            # `:` is given a new folder too, while its part stays here
            here = '[ -e {} ] || { d=$PWD; cd "${CCP_OVER_FOLDER:?}" && rmdir "$d"; }'
            # rsync wants the file that it returns
            run = "%s; %s; s=$?; [ -e {.}.result ] || : > {.}.result; exit $s" % (here, run)
        if self.jobs:
            words += ["--jobs", self.jobs]
        if self.job.words == "metrics" and not self.logins:
            words += ["--max-args", str(self.parts_of_process())]
        return [*words, run]

    def parts_of_process(self) -> int:
        """How many parts one process works out the metrics of here: its imports take as long as a small part. Each
        processor gets two processes at least, so that none waits long for the last one."""
        return max(1, min(MOST_OF_PROCESS, len(self.folder.left()) // (2 * processors())))


def plain_folder() -> str:
    """A folder for temporary files whose name a shell takes as it stands, as GNU parallel hands it to one."""
    found = tempfile.gettempdir()
    return found if re.fullmatch(r"[A-Za-z0-9_@%+=:,./-]+", found) else "/tmp"


def unseen(word: str) -> str:
    """A word for sh within a command of GNU parallel, which sees none of its replacement strings in it: each begins
    with a brace."""
    return shlex.quote(word).replace("{", "'\"$(printf '\\173')\"'")


def end_runs(running: subprocess.Popen[bytes]) -> None:
    """Ends GNU parallel, which ends its runs at a SIGINT; one that doesn't within ten seconds is killed."""
    running.send_signal(signal.SIGINT)
    try:
        running.communicate(timeout=10)
    except subprocess.TimeoutExpired:
        running.kill()
        running.wait()


class Slurm(Runner):
    """Runs as array jobs of Slurm, whose nodes share the folder. `options` are options of sbatch."""

    MOST_TASKS = 1000
    POLL_S = 2.0

    def __init__(self, folder: Folder, job: Job, tries: int, options: Sequence[str]) -> None:
        super().__init__(folder, job, tries)
        self.options = list(options)

    def run(self) -> None:
        """Submits the parts, and again those that have no answer when the job is over."""
        for number in range(self.tries):
            left = self.folder.left()
            if not left:
                return
            job = self.submit(left, number)
            try:
                self.wait(job)
            except BaseException:
                subprocess.run(["scancel", job], stdin=subprocess.DEVNULL, stderr=subprocess.DEVNULL)
                raise

    def submit(self, left: Sequence[int], number: int) -> str:
        """Submits an array job of parts, and returns its number."""
        tasks = min(len(left), self.MOST_TASKS)
        todo = "todo.%d" % number
        write_text(self.folder.path / todo, "".join("%06d\n" % at for at in left))
        words = ["sbatch", "--parsable", "--job-name=ccp-over", "--ntasks=1", "--requeue", "--open-mode=append"]
        words += ["--chdir=%s" % self.folder.path, "--output=task-%a.log", "--array=0-%d" % (tasks - 1), *self.options]
        try:
            ran = subprocess.run(
                words, input=self.script(todo, tasks), stdout=subprocess.PIPE, stderr=subprocess.PIPE, text=True
            )
        except OSError as error:
            raise CcpError("sbatch: %s" % error.strerror) from None
        found = re.match(r"[0-9]+", ran.stdout.strip())
        if ran.returncode or not found:
            last = cut(ran.stderr.strip().split("\n")[-1], MOST_OF_AN_ERROR)
            raise CcpError("sbatch: %s" % (last or "status %d" % ran.returncode))
        return found.group(0)

    def script(self, todo: str, tasks: int) -> str:
        """The script of a task, which takes every `tasks`-th part of the list and runs it if it has no answer yet."""
        return """#!/bin/sh
for part in $(awk -v task="$SLURM_ARRAY_TASK_ID" 'NR %% %d == (task + 1) %% %d' %s); do
    case $(head -n 1 "$part.result" 2>/dev/null) in
        "ccp-part 0 "* | "ccp-part %d "*) ;;
        *) sh part.sh "$part" ;;
    esac
done
exit 0
""" % (
            tasks,
            tasks,
            todo,
            REFUSED,
        )

    def wait(self, job: str) -> None:
        """Waits until Slurm knows no task of a job any more, or all parts have answers. A controller that doesn't
        answer for a while is asked again."""
        while not self.folder.is_done():
            asked = ["squeue", "--noheader", "--jobs", job, "--format", "%i %T"]
            ran = subprocess.run(
                asked, stdin=subprocess.DEVNULL, stdout=subprocess.PIPE, stderr=subprocess.PIPE, text=True
            )
            if ran.returncode == 0 and not ran.stdout.strip() or "Invalid job id" in ran.stderr:
                # a shared folder may show files late
                until = time.monotonic() + 5
                while not self.folder.is_done() and time.monotonic() < until:
                    time.sleep(0.2)
                return
            self.last_error = cut(ran.stderr.strip().split("\n")[-1], MOST_OF_AN_ERROR)
            time.sleep(self.POLL_S)
