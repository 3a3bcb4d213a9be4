"""Tests of `ccp over`: what is run in parts is what one run would print."""
from __future__ import annotations

import contextlib
import io
import json
import os
import signal
import subprocess
import sys
import threading
import time
from pathlib import Path
from typing import Any, Dict, List

import machines
import pytest
from inside import run_inside
from support import REPOSITORY, TRACES, Ran, ccp, needs, script

from ccp_tools.errors import CcpError
from ccp_tools.parts import merged, parts_of, print_metrics

TEXTS = {path.stem: path.read_text() for path in TRACES}


def grid(traces: Dict[str, str], queues: List[int], acks: int, **more: Any) -> Dict[str, Any]:
    """A scenario of Reno and CUBIC on each trace and each queue."""
    case = {"mss": 1448, "delay_us": 20_000, "timeout_us": 1_000_000, "acks": acks, **more}
    cases = [
        dict(case, name="%s-%s-%d" % (trace, agent, queue), agent=agent, trace=trace, queue=queue)
        for trace in traces
        for agent in ("reno", "cubic")
        for queue in queues
    ]
    return {"version": 1, "traces": traces, "cases": cases}


def saved(folder: Path, scenario: Dict[str, Any]) -> Path:
    path = folder / "scenario.json"
    path.write_text(json.dumps(scenario))
    return path


def over(*words: object, given: str | None = None) -> Ran:
    return run_inside("over", *words, given=given)


def alone(scenario: Dict[str, Any], case: Dict[str, Any], mode: str = "campaign") -> str:
    """What the program prints of one case alone, with its trace alone."""
    part = dict(scenario, traces={case["trace"]: scenario["traces"][case["trace"]]}, cases=[case])
    return ccp(mode, given=json.dumps(part)).output


STAND_IN = """import json, sys
mode, scenario = sys.argv[1], json.load(sys.stdin)
cases = scenario["cases"]
sys.exit(3) if len(cases) > 64 or sum(case["acks"] for case in cases) > 262144 else None
print("install 0 00") if "--wire" in sys.argv else None
for at, case in enumerate(cases):
    print("flow %d case=%s agent=%s" % (at, case["name"], case["agent"]))
    print("now=%d" % case["queue"] if mode == "acks" else "end acks=0 reports=0 held=0 faults=0 tail=0..0 stopped=no")
"""


# ---- parts


@needs("parallel")
def test_parts_are_the_whole(tmp_path: Path, program: Path) -> None:
    path = saved(tmp_path, grid(TEXTS, [10, 20], 60))
    wanted = ccp("campaign", "--wire", given=path.read_text()).output
    for size in (1, 5, 100):
        ran = over("--size", size, "--wire", path)
        assert (ran.status, ran.output) == (0, wanted), ran.errors
        assert ran.errors.endswith("parts done\n") and "\r" not in ran.errors
    ran = over("--quiet", "--wire", "-", given=path.read_text())
    assert (ran.status, ran.output, ran.errors) == (0, wanted, "")


@needs("parallel")
@pytest.mark.parametrize("mode", ["timeline", "acks"])
def test_parts_of_flows(mode: str, tmp_path: Path, program: Path) -> None:
    scenario = grid(TEXTS, [10, 20], 100, losses=[7, 20])
    path = saved(tmp_path, scenario)
    wanted = ccp(mode, "--wire", given=path.read_text()).output
    ran = over("--quiet", "--" + mode, "--size", 5, "--wire", path)
    assert (ran.status, ran.output) == (0, wanted), ran.errors


@needs("parallel")
def test_flows_are_numbered_through(tmp_path: Path) -> None:
    """By a program that prints a line for each case, so that 100 cases and 500,000 acknowledgements take no time."""
    stand_in = script(tmp_path, "stand-in", STAND_IN, first="#!/usr/bin/env python3\n")
    scenario = grid({"fixed": TEXTS["fixed"]}, list(range(1, 51)), 5000)
    path = saved(tmp_path, scenario)
    for mode in ("timeline", "acks"):
        ran = over("--quiet", "--wire", "--" + mode, "--ccp", stand_in, path)
        lines = ran.output.split("\n")
        assert ran.status == 0 and lines[0] == "install 0 00" and ran.output.count("install") == 1, ran.errors
        heads = [
            "flow %d case=%s agent=%s" % (at, case["name"], case["agent"]) for at, case in enumerate(scenario["cases"])
        ]
        assert lines[1:-1:2] == heads
        assert mode == "timeline" or lines[2:-1:2] == ["now=%d" % case["queue"] for case in scenario["cases"]]


def test_parts_keep_the_limits() -> None:
    """More cases, bytes or acknowledgements than one run takes become parts with the traces of their own cases."""
    long = "".join("%d\n" % (at // 12) for at in range(12, 90_000))
    scenario = grid({"one": long, "two": long, "small": "1\n"}, [1, 2, 3], 65_536)
    for output, least in (("campaign", 2), ("timeline", 5), ("metrics", 5)):
        parts = parts_of(json.dumps(scenario).encode(), output, 1000)
        assert len(parts) >= least and [part.first for part in parts] == [0, *[part.end for part in parts[:-1]]]
        for part in parts:
            made = json.loads(part.text)
            assert len(part.text) <= 1_048_576 and made["cases"] == scenario["cases"][part.first : part.end]
            assert {case["trace"] for case in made["cases"]} <= set(made["traces"])
            assert output == "campaign" or sum(case["acks"] for case in made["cases"]) <= 262_144
    many = grid({"t": "1\n"}, list(range(1, 1201)), 3)
    assert [part.end for part in parts_of(json.dumps(many).encode(), "campaign", 5000)] == [1024, 2048, 2400]


def test_a_case_that_no_run_takes_is_refused() -> None:
    scenario = grid({"huge": "".join("%d\n" % time for time in range(1, 200_000))}, [1], 3)
    with pytest.raises(CcpError, match=r"cases\[0\] alone has .* cut the trace") as caught:
        parts_of(json.dumps(scenario).encode(), "campaign", 10)
    assert caught.value.status == 3


def test_columns_of_parts_are_merged() -> None:
    assert merged(["case", "a", "b", "lost"], ["case", "a", "c", "lost"]) == ["case", "a", "b", "c", "lost"]
    assert merged([], ["x", "y"]) == ["x", "y"]


def test_metrics_of_parts_are_one_table(tmp_path: Path) -> None:
    for name, text in (("a", "case,x,lost\na,1,2\n"), ("b", 'case,y,lost\n"b,c",3,4\n')):
        (tmp_path / name).write_text(text)
    with contextlib.redirect_stdout(io.StringIO()) as out:
        print_metrics([tmp_path / "a", tmp_path / "b"])
    assert out.getvalue() == 'case,x,y,lost\na,1,,2\n"b,c",,3,4\n'


@needs("parallel", "import pandas", "import scipy")
def test_metrics_are_worked_out_in_the_parts(tmp_path: Path, program: Path) -> None:
    path = saved(tmp_path, grid({"wave": TEXTS["wave"]}, [10, 20], 60))
    texts = []
    for mode in ("campaign", "timeline", "acks"):
        texts.append(tmp_path / mode)
        texts[-1].write_text(ccp(mode, given=path.read_text()).output)
    wanted = run_inside("metrics", path, *texts)
    ran = over("--quiet", "--metrics", "--size", 2, "--python", sys.executable, path)
    assert (ran.status, ran.output) == (0, wanted.output), ran.errors
    assert wanted.output.count("\n") == 5


# ---- words of the user

# names that GNU parallel, a shell, or both would take for more than names
NAMES = ["{= qx(touch RAN) =} {#}{}{.}{%} x", "a b;touch RAN;'c\" $(touch RAN)\n`touch RAN` \\"]
STUB = """echo "$*" >> "%s/asked"
while [ $# -gt 0 ]; do case $1 in -o | -l | -p) shift 2 ;; -*) shift ;; *) break ;; esac; done
shift; [ "$1" != -- ] || shift
cd "%s" && exec sh -c "$*"
"""


def place_of(folder: Path, name: str, program: Path) -> Path:
    """The program in a folder of this name."""
    (folder / name).mkdir()
    return script(folder / name, "ccp", 'exec "%s" "$@"\n' % program)


@needs("parallel")
@pytest.mark.parametrize("name", NAMES)
def test_a_path_is_data(tmp_path: Path, program: Path, monkeypatch: pytest.MonkeyPatch, name: str) -> None:
    """Of the program and of the parts: nothing of it runs, or is replaced."""
    monkeypatch.chdir(tmp_path)
    path = saved(tmp_path, grid({"fixed": TEXTS["fixed"]}, [10], 60))
    found = place_of(tmp_path, name, program)
    ran = over("--quiet", "--ccp", found, "--parts", found.parent / "parts", path)
    assert (ran.status, ran.output) == (0, ccp("campaign", given=path.read_text()).output), ran.errors
    assert not list(tmp_path.rglob("RAN*"))


@needs("parallel", "rsync")
def test_a_path_is_data_on_machines(tmp_path: Path, program: Path, monkeypatch: pytest.MonkeyPatch) -> None:
    """With a stand-in for ssh, which runs all here, on two machines and this one. TMPDIR is a path too."""
    path = saved(tmp_path, grid({"fixed": TEXTS["fixed"]}, [10, 20], 60))
    found = place_of(tmp_path, "".join(NAMES), program)
    monkeypatch.setattr("tempfile.tempdir", str(found.parent))
    monkeypatch.setenv("TMPDIR", str(found.parent))
    (tmp_path / "bin").mkdir()
    ssh = script(tmp_path / "bin", "ssh", STUB % (tmp_path, tmp_path), first="#!/bin/sh\n")
    words = ["--ccp", found, "--ssh", ssh, "--sshlogin", "1/h1,1/user@h2,1/:", "--size", 1]
    ran = over("--quiet", *words, "--parts", found.parent / "parts", path)
    assert (ran.status, ran.output, ran.errors) == (0, ccp("campaign", given=path.read_text()).output, "")
    asked = (tmp_path / "asked").read_text()
    assert "h1 -- " in asked and "h2 -- " in asked and not list(tmp_path.rglob("RAN*"))


@needs("parallel")
def test_an_interpreter_is_data(tmp_path: Path, program: Path, monkeypatch: pytest.MonkeyPatch) -> None:
    monkeypatch.chdir(tmp_path)
    path = saved(tmp_path, grid({"fixed": TEXTS["fixed"]}, [10], 60))
    words = ["--metrics", "--python", NAMES[0], "--tries", 1, "--parts", tmp_path / "parts", path]
    ran = over("--quiet", *words)
    assert ran.status == 1 and NAMES[0] in ran.errors and not list(tmp_path.rglob("RAN*"))


LOGINS = ["1/h;touch RAN", "h$(touch RAN)", "{= 1 =}", "h -F x", "-Fx", "1/-oProxyCommand", "h\nk", "..", "a/b", "(h)"]


@pytest.mark.parametrize("login", [*LOGINS, "h" * 300 + ";"])
def test_a_machine_is_a_name(login: str) -> None:
    ran = over("--sshlogin", "h1," + login, "/dev/null")
    assert ran.status == 2 and ran.errors.startswith("ccp over: --sshlogin "), ran.errors
    assert "a machine is HOST, USER@HOST or :" in ran.errors and len(ran.errors) < 400


def test_machines_of_gnu_parallel(monkeypatch: pytest.MonkeyPatch, tmp_path: Path) -> None:
    monkeypatch.setenv("PATH", str(tmp_path))
    for login in ("h1", "8/h1", "8/user@h.example.org", ":", "2/:", "h_1:2222", "@group/4/h1", "10.0.0.7"):
        assert "isn't installed" in over("--sshlogin", login, "/dev/null").errors, login


# ---- failures


@needs("parallel")
@pytest.mark.parametrize(
    "text, said",
    [
        ("kill -9 $$", " on {host}, by the signal SIGKILL (status 137)"),
        ("kill -13 $$", "without an error line, after 0 bytes of output, on {host}, by the signal SIGPIPE"),
        ("exit 7", "it ended without an error line, after 0 bytes of output, on {host}, with status 7"),
        ("echo no memory >&2; exit 6", "the cases 0 to 1: no memory on {host}, with status 6"),
    ],
)
def test_a_part_that_fails_says_how(tmp_path: Path, program: Path, text: str, said: str) -> None:
    path = saved(tmp_path, grid({"fixed": TEXTS["fixed"]}, [10], 60))
    never = script(tmp_path, "never", text + "\n")
    ran = over("--quiet", "--ccp", never, "--tries", 1, "--size", 2, path)
    assert ran.status == 1 and said.format(host=os.uname().nodename) in ran.errors, ran.errors


@needs("parallel")
def test_parts_that_were_cut_off_are_written_again(tmp_path: Path, program: Path) -> None:
    """As by a full disk. A folder with files of the user is refused."""
    path, parts = saved(tmp_path, grid({"fixed": TEXTS["fixed"]}, [10], 60)), tmp_path / "parts"
    parts.mkdir()
    (parts / "000000.json").write_text("{")
    ran = over("--quiet", "--parts", parts, path)
    assert ran.status == 2 and "isn't empty" in ran.errors and (parts / "000000.json").read_text() == "{"
    (parts / ".ccp-over-begun").touch()
    assert over("--quiet", "--parts", parts, path).status == 0
    assert over("--quiet", "--resume", "--parts", parts, path).status == 0 and not list(parts.glob(".ccp*"))


@needs("parallel")
def test_one_run_has_the_parts(tmp_path: Path, program: Path) -> None:
    """A second one in the same folder is refused at once."""
    path, parts = saved(tmp_path, grid({"fixed": TEXTS["fixed"]}, [10], 60)), tmp_path / "parts"
    parts.mkdir()
    with subprocess.Popen([sys.executable, "-c", HOLD, parts], stdin=subprocess.PIPE, stdout=subprocess.PIPE) as held:
        assert held.stdout and held.stdin and held.stdout.readline() == b"held\n"
        ran = over("--quiet", "--parts", parts, "--resume", path)
        held.stdin.close()
    assert ran.status == 1 and "%s: another run of ccp over uses this folder" % parts in ran.errors, ran.errors
    assert over("--quiet", "--parts", parts, path).status == 0


HOLD = """import fcntl, sys
file = open(sys.argv[1] + "/.ccp-over.lock", "w")
fcntl.lockf(file, fcntl.LOCK_EX)
print("held", flush=True)
sys.stdin.read()
"""


@needs("parallel")
def test_a_lost_part_is_run_again(tmp_path: Path, program: Path) -> None:
    """A program that fails or is killed in the middle of its output on its first two runs."""
    path = saved(tmp_path, grid({"fixed": TEXTS["fixed"]}, [10, 20, 30], 60))
    wanted = ccp("campaign", given=path.read_text()).output
    text = 'if mkdir "{0}/one" 2>/dev/null; then "{1}" "$@" | head -c 100; kill -9 $$; fi\n'
    text += 'if mkdir "{0}/two" 2>/dev/null; then echo gone >&2; exit 255; fi\nexec "{1}" "$@"\n'
    flaky = script(tmp_path, "flaky", text.format(tmp_path, program))
    ran = over("--ccp", flaky, "--size", 2, path)
    assert (ran.status, ran.output) == (0, wanted), ran.errors


@needs("parallel")
def test_a_part_that_fails_for_good_loses_nothing(tmp_path: Path, program: Path) -> None:
    """The other parts are kept, and --resume runs the missing one alone."""
    path = saved(tmp_path, grid({"fixed": TEXTS["fixed"]}, [10, 20, 30], 60))
    wanted = ccp("campaign", given=path.read_text()).output
    text = 'echo run >> "{0}/runs"\n[ -e "{0}/well" ] || [[ $s != *cubic-20* ]] || {{ echo no memory >&2; exit 6; }}\n'
    half = script(tmp_path, "half", "s=$(cat)\n" + text.format(tmp_path) + '"%s" "$@" <<< "$s"\n' % program)
    parts = tmp_path / "parts"
    words = ["--ccp", half, "--size", 1, "--tries", 2, "--parts", parts, path]
    ran = over(*words)
    assert ran.status == 1 and not ran.output
    assert "1 of 6 parts had no run that ended well, the first one with the cases 4 to 4: no memory" in ran.errors
    assert "with status 6" in ran.errors and "5 of 6 parts done" in ran.errors
    runs = (tmp_path / "runs").read_text().count("run")
    assert runs == 7
    again = over(*words)
    assert again.status == 2 and "--resume goes on" in again.errors
    (tmp_path / "well").touch()
    ran = over("--resume", *words)
    assert (ran.status, ran.output) == (0, wanted), ran.errors
    assert (tmp_path / "runs").read_text().count("run") == runs + 1
    # all is there: nothing is run
    ran = over("--resume", *words)
    assert (ran.output, ran.errors) == (wanted, "") and (tmp_path / "runs").read_text().count("run") == runs + 1


@needs("parallel")
def test_a_folder_of_its_own_is_kept_only_if_it_is_needed(tmp_path: Path, program: Path, monkeypatch: Any) -> None:
    monkeypatch.setattr("tempfile.tempdir", str(tmp_path / "rooms"))
    (tmp_path / "rooms").mkdir()
    path = saved(tmp_path, grid({"fixed": TEXTS["fixed"]}, [10, 20], 60))
    never = script(tmp_path, "never", "echo gone >&2; exit 255\n")
    ran = over("--quiet", "--ccp", never, "--tries", 1, "--size", 1, path)
    assert ran.status == 1 and "4 of 4 parts" in ran.errors and "gone" in ran.errors
    assert over("--quiet", path).status == 0 and not list((tmp_path / "rooms").iterdir())
    half = script(tmp_path, "half", 's=$(cat)\n[[ $s != *cubic-20* ]] || exit 6\n"%s" "$@" <<< "$s"\n' % program)
    ran = over("--ccp", half, "--tries", 1, "--size", 1, path)
    (kept,) = (tmp_path / "rooms").iterdir()
    assert ran.status == 1 and "--resume --parts %s" % kept in ran.errors
    assert len(list(kept.glob("*.result"))) == 4


@needs("parallel")
def test_parts_of_other_runs_are_not_mixed(tmp_path: Path, program: Path) -> None:
    scenario = grid({"fixed": TEXTS["fixed"]}, [10], 60)
    path, parts = saved(tmp_path, scenario), tmp_path / "parts"
    assert over("--quiet", "--parts", parts, path).status == 0
    other = script(tmp_path, "other", 'exec "%s" "$@"\n' % program)
    for words, part in (
        ([], "with another scenario"),
        (["--wire"], "another mode"),
        (["--ccp", other], "another program"),
    ):
        given = json.dumps(dict(scenario, x=1)) if not words else path.read_text()
        ran = over("--resume", "--parts", parts, *words, "-", given=given)
        assert ran.status == 2 and part in ran.errors, ran.errors
    (parts / "run.json").write_text("{}")
    assert "no list of parts" in over("--resume", "--parts", parts, path).errors
    (parts / "run.json").unlink()
    ran = over("--parts", parts, path)
    assert ran.status == 2 and "isn't empty" in ran.errors


@needs("parallel")
def test_a_refusal_is_that_of_the_whole(tmp_path: Path, program: Path) -> None:
    whole = grid({"fixed": TEXTS["fixed"]}, [10, 20, 30], 60)
    whole["cases"][4]["mss"] = 0
    ran = over("--quiet", "--size", 2, saved(tmp_path, whole))
    assert (ran.status, ran.output) == (3, "")
    assert ran.errors == ccp("campaign", given=json.dumps(whole)).errors.replace("ccp: ", "ccp over: ", 1)
    for text in ("{", "[]", '{"version":1,"traces":{},"cases":[7]}', "\ufeff{}", '{"a": NaN}', "", "[" * 9999):
        wanted = ccp("campaign", given=text)
        ran = over("--quiet", "-", given=text)
        assert (ran.status, ran.errors) == (wanted.status, wanted.errors.replace("ccp: ", "ccp over: ", 1)), text[:40]


def test_words_and_files_are_refused(tmp_path: Path) -> None:
    wrong: List[List[object]] = [["--size", "0"], ["--size", "-3"], ["--size", "1025"], ["--tries", "0"], ["--what"]]
    wrong += [["--timeline", "--acks"], ["--resume"], ["--slurm"], ["--slurm", "--parts", "x", "--sshlogin", "a"]]
    wrong += [["--sbatch=-x"], ["--wire", "--metrics"], ["--slurm", "--parts", "x", "--jobs", "2"]]
    for words in wrong:
        ran = over(*words, "scenario.json")
        assert ran.status == 2 and ran.errors.startswith("ccp over: ") and ran.errors.count("\n") == 1, ran.errors


@needs("parallel")
def test_files_are_refused(tmp_path: Path, program: Path) -> None:
    for words, part in (
        (["no-such-file"], "no-such-file: No such file"),
        ([tmp_path], "folder"),
        (["--ccp", "/no/such/ccp", "/dev/null"], "no program at /no/such/ccp"),
        (["--parts", "/dev/null/x", "/dev/null"], "/dev/null/x: "),
    ):
        ran = over(*words)
        assert ran.status == 1 and part in ran.errors and ran.errors.count("\n") == 1, ran.errors


def test_a_command_that_is_not_installed_is_named(tmp_path: Path, monkeypatch: pytest.MonkeyPatch) -> None:
    monkeypatch.setenv("PATH", str(tmp_path))
    assert "parallel isn't installed" in over("/dev/null").errors
    assert "apt-get install slurm-client" in over("--slurm", "--parts", "x", "/dev/null").errors


# a signal, whether all processes get it or that of the command alone, and the status that it gives
SIGNALS = [
    (signal.SIGINT, True, 130),
    (signal.SIGINT, False, 130),
    (signal.SIGTERM, False, 143),
    (signal.SIGHUP, True, 129),
]


@needs("parallel")
@pytest.mark.parametrize("number, is_for_all, status", SIGNALS)
def test_an_interrupt_keeps_the_parts_that_are_done(
    tmp_path: Path, program: Path, number: int, is_for_all: bool, status: int
) -> None:
    path = saved(tmp_path, grid({"fixed": TEXTS["fixed"]}, [10, 20], 60))
    sleeps = 'if [[ $s == *cubic-20* ]]; then echo $$ > "%s/sleeper"; sleep 100; fi' % tmp_path
    slow = script(tmp_path, "slow", 's=$(cat)\n%s\n"%s" "$@" <<< "$s"\n' % (sleeps, program))
    words = [sys.executable, "-m", "ccp_tools", "over", "--ccp", slow, "--size", "1", "--parts", tmp_path / "p", path]
    env = {**os.environ, "PYTHONPATH": str(REPOSITORY / "src")}
    running = subprocess.Popen(
        list(map(str, words)), stdout=subprocess.PIPE, stderr=subprocess.PIPE, env=env, start_new_session=True
    )
    until = time.monotonic() + 60

    def has_begun() -> bool:
        return len(list((tmp_path / "p").glob("*.result"))) == 3 and (tmp_path / "sleeper").exists()

    while not has_begun() and time.monotonic() < until:
        time.sleep(0.2)
    (os.killpg if is_for_all else os.kill)(running.pid, number)
    output, errors = running.communicate(timeout=60)
    assert running.returncode == status and not output and b"Traceback" not in errors, errors
    assert len(list((tmp_path / "p").glob("*.result"))) == 3
    # nothing runs on
    sleeper = Path("/proc") / (tmp_path / "sleeper").read_text().strip() / "cmdline"
    while sleeper.exists() and sleeper.read_bytes() and time.monotonic() < until:
        time.sleep(0.1)
    assert not (sleeper.exists() and sleeper.read_bytes())


# ---- machines


@pytest.mark.slow
@pytest.mark.together("hosts")
def test_over_three_hosts(tmp_path: Path, program: Path) -> None:
    """A host that doesn't exist is left out, and one that is cut off in the middle loses nothing."""
    scenario = grid(TEXTS, [10, 20], 60)
    path = saved(tmp_path, scenario)
    wanted = ccp("campaign", given=path.read_text()).output
    slow = script(tmp_path, "slow", 'sleep 2\nexec "%s" "$@"\n' % program)
    with machines.three_hosts(tmp_path) as hosts:
        ssh = hosts.ssh + " -o ServerAliveInterval=2 -o ServerAliveCountMax=2"
        words = ["--ccp", slow, "--ssh", ssh, "--sshlogin", "1/h1,1/h2,1/nowhere", "--sshlogin", "1/h3", "--size", 1]
        parts = tmp_path / "parts"

        def cut_off() -> None:
            until = time.monotonic() + 120
            while len(list(parts.glob("*.result"))) < 3 and time.monotonic() < until:
                time.sleep(0.1)
            hosts.cut_off(2)

        cutter = threading.Thread(target=cut_off)
        cutter.start()
        ran = over(*words, "--parts", parts, path)
        cutter.join()
    assert (ran.status, ran.output) == (0, wanted), ran.errors
    assert "left out, since they can't be reached: 1/nowhere" in ran.errors and "12 of 12 parts done" in ran.errors


@pytest.mark.slow
@pytest.mark.together("hosts")
def test_machines_are_tried_first(tmp_path: Path, program: Path) -> None:
    """One with another program, without it, or that can't be reached, is named before anything runs."""
    path = saved(tmp_path, grid({"fixed": TEXTS["fixed"]}, [10], 60))
    one = script(tmp_path, "one", 'exec "%s" "$@"\n' % program)
    other = script(tmp_path, "other", '# another version\nexec "%s" "$@"\n' % program)
    no_program = tmp_path / "none"
    no_program.write_text("")
    with machines.three_hosts(tmp_path, {2: (one, other), 3: (one, no_program)}) as hosts:
        words = ["--quiet", "--ccp", one, "--ssh", hosts.ssh, "--parts", tmp_path / "parts", "--resume"]
        ran = over(*words, "--sshlogin", "h1,h2", path)
        assert ran.status == 1 and "h2: %s has the SHA-256 " % one in ran.errors and "here" in ran.errors
        ran = over(*words, "--sshlogin", "h3", path)
        assert ran.status == 1 and "h3: there is no program at %s" % one in ran.errors
        ran = over(*words, "--sshlogin", "nowhere", path)
        assert ran.status == 1 and "no machine can be reached" in ran.errors
        assert not list((tmp_path / "parts").glob("*.result"))
        before = set(os.listdir(os.path.expanduser("~")))
        ran = over(*words, "--sshlogin", "h1,:", path)
        assert ran.status == 0 and ran.output == ccp("campaign", given=path.read_text()).output, ran.errors
        assert set(os.listdir(os.path.expanduser("~"))) - before <= {".parallel"}


@pytest.mark.slow
def test_over_slurm(tmp_path: Path, program: Path, monkeypatch: pytest.MonkeyPatch) -> None:
    """An array job over two nodes, of which one is set down in the middle."""
    path = saved(tmp_path, grid(TEXTS, [10, 20], 60))
    wanted = ccp("campaign", given=path.read_text()).output
    slow = script(tmp_path, "slow", 'sleep 2\nexec "%s" "$@"\n' % program)
    room = tmp_path / "slurm"
    room.mkdir()
    with machines.cluster(room) as nodes:
        monkeypatch.setenv("SLURM_CONF", nodes.env["SLURM_CONF"])
        parts = tmp_path / "parts"

        def set_down() -> None:
            until = time.monotonic() + 120
            while len(list(parts.glob("*.result"))) < 3 and time.monotonic() < until:
                time.sleep(0.1)
            nodes.set_down("n2")

        cutter = threading.Thread(target=set_down)
        cutter.start()
        ran = over("--ccp", slow, "--slurm", "--parts", parts, "--size", 1, "--sbatch=--time=5", path)
        cutter.join()
        assert (ran.status, ran.output) == (0, wanted), ran.errors
        assert "12 of 12 parts done" in ran.errors
        wrong = over("--slurm", "--parts", tmp_path / "wrong", "--sbatch=--partition=none", path)
        assert wrong.status == 1 and "sbatch: " in wrong.errors and "nvalid partition" in wrong.errors
