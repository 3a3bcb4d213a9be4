"""`ccp over --split-only` and `--join`, for schedulers that it doesn't know; and parts whose metrics one process works
out."""
from __future__ import annotations

import subprocess
from pathlib import Path

import pytest
from inside import run_inside
from support import TRACES, ccp, needs

from ccp_tools import over_runs, scenario
from ccp_tools.over_runs import pack_tools
from ccp_tools.scenario_files import scenario_text


@pytest.fixture
def large(tmp_path: Path) -> Path:
    words = ["--whole", "--senders", "reno,cubic", "--queue", "10..15", "--acks", "60", str(TRACES[0])]
    file = tmp_path / "large.json"
    file.write_text(scenario_text(scenario.make(words)))
    return file


def test_parts_that_another_scheduler_runs_are_the_whole(program, large, tmp_path):
    parts = tmp_path / "pa rts"
    words = ["over", "--parts", parts, large]
    ran = run_inside(*words[:1], "--split-only", "--size", "5", *words[1:])
    assert (ran.status, ran.output) == (0, "") and "3 commands in" in ran.errors and "--join --parts" in ran.errors, ran
    commands = (parts / "commands.txt").read_text().splitlines()
    assert commands == ["cd '%s' && sh part.sh %06d" % (parts, at) for at in range(3)]
    early = run_inside(*words[:1], "--join", *words[1:])
    assert early.status == 1 and "3 of 3 parts had no run that ended well" in early.errors and not early.output
    for command in reversed(commands):
        subprocess.run(["sh", "-c", command], check=True)
    ran = run_inside(*words[:1], "--join", *words[1:])
    assert (ran.status, ran.output) == (0, ccp("campaign", given=large.read_text()).output)
    again = run_inside(*words[:1], "--split-only", *words[1:])
    assert again.status == 2 and "--resume goes on with them" in again.errors
    left = run_inside(*words[:1], "--split-only", "--resume", *words[1:])
    assert left.status == 0 and "0 commands in" in left.errors


def test_what_they_refuse(program, large, tmp_path):
    for words, line in (
        (["--join"], "--join needs --parts FOLDER"),
        (["--split-only"], "--split-only needs --parts FOLDER"),
        (["--join", "--parts", tmp_path / "none"], "none: there is no such folder"),
        (["--join", "--parts", tmp_path], "has no parts of `ccp over --split-only`"),
        (["--split-only", "--jobs", "2", "--parts", tmp_path], "--split-only runs nothing"),
        (["--split-only", "--join"], "not allowed with argument"),
    ):
        ran = run_inside("over", *words, large)
        assert ran.status in (1, 2) and line in ran.errors and ran.errors.count("\n") == 1, ran
    assert not (tmp_path / "none").exists()


@needs("import pandas")
def test_one_process_works_out_the_metrics_of_several_parts(program, large, tmp_path):
    """A part that has an answer isn't run again, and one that fails loses nothing of the others."""
    parts = tmp_path / "parts"
    run_inside("over", "--metrics", "--split-only", "--size", "4", "--parts", parts, large)
    (parts / "counted").write_text("")
    words = (parts / "words.sh").read_text()
    python = next(line for line in words.splitlines() if line.startswith("python=")).partition("=")[2]
    counting = parts / "python"
    counting.write_text('#!/bin/sh\necho run >> %s/counted\nexec %s "$@"\n' % (parts, python))
    counting.chmod(0o755)
    (parts / "words.sh").write_text(words.replace("python=%s" % python, "python=%s" % counting))
    (parts / "000001.json").write_text("{}")
    done = subprocess.run(["sh", "part.sh", "000000", "000001", "000002"], cwd=parts, stderr=subprocess.PIPE)
    assert done.returncode == 0 and done.stderr == b""
    results = [(parts / ("%06d.result" % at)).read_text() for at in range(3)]
    assert [text.split()[1] for text in results] == ["0", "3", "0"] and "input refused" in results[1]
    assert results[2].split("\n")[1].startswith("case,trace,sender")
    assert (parts / "counted").read_text() == "run\n"
    subprocess.run(["sh", "part.sh", "000000", "000002"], cwd=parts, check=True)
    assert (parts / "counted").read_text() == "run\n"
    assert not [path.name for path in parts.iterdir() if path.suffix in (".table", ".acks", ".status", ".half")]


def test_the_tools_of_a_folder_have_the_module_of_parts(tmp_path):
    pack_tools(tmp_path / "tools.pyz")
    assert b"ccp_tools/over_metrics.py" in (tmp_path / "tools.pyz").read_bytes() and over_runs.MOST_OF_PROCESS > 1
