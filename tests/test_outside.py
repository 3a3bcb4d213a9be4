"""Agents outside as senders of `ccp compare`."""
from __future__ import annotations

import csv
import hashlib
import html
import json
import re
from pathlib import Path
from typing import Any, Dict, List

import pytest
from support import EXAMPLES, TRACES, Ran, command, needs, ran, require

pytestmark = needs("import matplotlib", "import pandas", "import jinja2")
require("matplotlib")

AIMD = EXAMPLES / "agents" / "aimd.py"
DELAY = EXAMPLES / "delay.portus"


def compare(driver: Path, folder: Path, senders: str, *words: object) -> Ran:
    """A comparison of half a second on two traces."""
    given = [*TRACES[:2], "--senders", senders, "--seconds", "0.5", "--out", folder, "--ccp", driver, *words]
    return command("compare", *given)


@pytest.fixture(scope="module")
def compared(driver: Path, tmp_path_factory: pytest.TempPathFactory) -> Path:
    """The folder of a comparison with an agent outside between two other senders."""
    folder = tmp_path_factory.mktemp("compare") / "out"
    made = compare(driver, folder, "reno,mine=%s,delay=%s" % (AIMD, DELAY), "--shared")
    assert made.status == 0, made.errors
    (folder / "printed").write_text(made.output, encoding="utf-8")
    (folder / "errors").write_text(made.errors, encoding="utf-8")
    return folder


def recordings(folder: Path) -> List[Path]:
    """The recordings of the agent outside, one for a trace."""
    return [folder / "mine.drive", folder / "mine+2.drive"]


def test_its_texts_stand_among_the_others(compared: Path) -> None:
    """In the order of the cases, with the agent `own`."""
    scenario = json.loads((compared / "scenario.json").read_text(encoding="utf-8"))
    names = [(case["name"], case["agent"]) for case in scenario["cases"]]
    assert [name for name, _ in names] == [t + "-" + s for t in ("fixed", "wave") for s in ("reno", "mine", "delay")]
    assert [agent for _, agent in names] == ["reno", "own", "reno"] * 2
    for file in ("timeline.txt", "acks.txt"):
        heads = re.findall(r"(?m)^flow (\d+) case=(\S+) agent=(\S+)$", (compared / file).read_text(encoding="utf-8"))
        assert heads == [(str(number), *name) for number, name in enumerate(names)], file
    rows = [line.split(" ")[:2] for line in (compared / "table.txt").read_text(encoding="utf-8").split("\n")[1:7]]
    assert rows == [list(name) for name in names]


def test_its_figures_are_those_of_its_recordings(driver: Path, compared: Path) -> None:
    """The parts of the texts are what `drive-table`, `drive-timeline` and `drive-acks` print."""
    table, acks = (compared / "table.txt").read_text().split("\n"), (compared / "acks.txt").read_text()
    timeline = (compared / "timeline.txt").read_text()
    for number, path in zip((1, 4), recordings(compared)):
        data = path.read_bytes()
        assert ran([driver, "drive-table"], data).output.split("\n")[1] == table[1 + number]
        for mode, text in (("drive-timeline", timeline), ("drive-acks", acks)):
            printed = ran([driver, mode], data).output.replace("flow 0 ", "flow %d " % number)
            assert printed in text and printed.startswith("flow %d case=" % number)
        case = json.loads(data.partition(b"\n---\n")[0])["cases"]
        assert [one["sender"] for one in case] == ["mine"]
    with (compared / "metrics.csv").open(encoding="utf-8") as file:
        rows = {row["case"]: row for row in csv.DictReader(file)}
    mine = rows["fixed-mine"]
    own = [dict(word.split("=") for word in line.split(" ")) for line in part_of(acks, 1)]
    inside = [one for one in own if int(one["now"]) <= 500_000]
    assert float(mine["throughput_mbps"]) == pytest.approx(
        8 * sum(int(one.get("bytes_acked", 0)) for one in inside) / 5e5
    )
    assert mine["agent"] == "own" and not mine["doubts"] and "fixed mine" in (compared / "printed").read_text()


def part_of(acks: str, number: int) -> List[str]:
    """The acknowledgement lines of a flow."""
    return acks.split("flow %d " % number)[1].split("\nflow ")[0].strip("\n").split("\n")[1:]


def test_the_report_names_it(compared: Path) -> None:
    """Its file and its recordings, each with its SHA-256; its programs; and who isn't among the senders of a link."""
    page = html.unescape((compared / "report.html").read_text(encoding="utf-8"))
    words = " ".join(re.sub(r"<[^>]*>", " ", page).split())
    assert "mine : an agent outside ccp, which drove its flows by frames ( mine=%s )" % AIMD in words
    assert "Its file: %s, SHA-256 %s ." % (AIMD, hashlib.sha256(AIMD.read_bytes()).hexdigest()) in words
    for path in recordings(compared):
        assert "%s , SHA-256 %s" % (path.name, hashlib.sha256(path.read_bytes()).hexdigest()) in words
    assert "round, SHA-256 %s" % hashlib.sha256((AIMD.parent / "round.portus").read_bytes()).hexdigest() in words
    assert "Agents outside drive a link alone, and aren't among those that share one: mine" in words
    assert "In 3 parts the judge said yes" in words and "Agents outside. An agent outside ccp answered" in words
    shared = json.loads((compared / "shared-fixed.json").read_text(encoding="utf-8"))
    assert [case["sender"] for case in shared["cases"]] == ["reno", "delay"]


def test_the_same_again(driver: Path, compared: Path, tmp_path: Path) -> None:
    """By compare.toml, which has to be trusted, as it and a line say: the same recordings and figures."""
    assert "runs its agents outside again, which takes --trust\n" in (compared / "errors").read_text(encoding="utf-8")
    first = (compared / "compare.toml").read_text(encoding="utf-8").splitlines()[0]
    assert first == "# ccp compare compare.toml --trust --out DIR"
    again = tmp_path / "again"
    words = [compared / "compare.toml", "--ccp", driver, "--out", again, "--quiet"]
    made = command("compare", *words)
    assert made.status == 1 and "compare.toml: senders: it runs %s: --trust accepts that" % AIMD in made.errors
    made = command("compare", *words, "--trust")
    assert made.status == 0, made.errors
    for path in [*recordings(compared), compared / "metrics.csv", compared / "timeline.txt"]:
        assert (again / path.name).read_bytes() == path.read_bytes(), path.name
    # what an earlier comparison wrote is removed, also a recording
    other = compare(driver, again, "reno", "--quiet")
    assert other.status == 0 and not list(again.glob("*.drive"))


def test_metrics_of_the_folder(compared: Path) -> None:
    files = [compared / name for name in ("scenario.json", "table.txt", "acks.txt", "timeline.txt")]
    made = command("metrics", *files, "--columns", "case,agent,packets", "--quiet")
    assert made.status == 0 and "fixed-mine,own," in made.output, made.errors


def test_agents_outside_alone(driver: Path, tmp_path: Path) -> None:
    """No judge is asked, and --shared has nobody."""
    made = compare(driver, tmp_path / "out", str(AIMD), "--shared", "--quiet")
    assert made.status == 0 and "fixed aimd" in made.output, made.errors
    page = (tmp_path / "out" / "report.html").read_text(encoding="utf-8")
    assert "the judge" not in page.lower() and not list((tmp_path / "out").glob("shared-*"))
    sized = compare(driver, tmp_path / "none", str(AIMD), "--dry-run")
    assert sized.status == 0 and "cases=2\n" in sized.output and not (tmp_path / "none").exists()


AGENT = """from ccp_tools.drive import Agent, Change


class Bad(Agent):
    programs = {"bad": "%s"}

    def on_create(self, create):
        return Change("bad")

    def on_report(self, report):
        return 1 // report.get("x", 0)
"""
REPORTS = "(def (Report (n 0)))(when true (report))"


def test_agents_outside_that_are_wrong(driver: Path, tmp_path: Path) -> None:
    """The sender is named, and what is wrong with it."""
    agent = tmp_path / "bad.py"
    wrong: Dict[str, str] = {
        "x = 1": "the sender bad: %s: it has no class of the kind Agent" % agent,
        "import nowhere": "the sender bad: the agent failed: %s:1: ModuleNotFoundError: No module named 'nowhere'"
        % agent,
        "import sys; sys.exit(0)": "the sender bad: the agent failed: %s:1: SystemExit: 0" % agent,
        AGENT % REPORTS: "the sender bad: the agent failed: %s:11: ZeroDivisionError: " % agent,
        (AGENT % REPORTS).replace("1 //", "exit(0) //"): "the agent failed: %s:11: SystemExit: 0" % agent,
        AGENT % "(def)(when x (report))": "ccp: input refused: program bad Unknown at 1:12",
    }
    for text, said in wrong.items():
        agent.write_text(text, encoding="utf-8")
        made = compare(driver, tmp_path / "out", "reno,%s" % agent, "--quiet")
        assert made.status in (1, 3) and said in made.errors and made.errors.count("\n") == 1, made.errors
    none = compare(driver, tmp_path / "out", "mine=%s" % (tmp_path / "none.py"))
    assert none.status == 1 and "the sender mine: %s: No such file" % (tmp_path / "none.py") in none.errors


def test_a_program_without_drive(program: Path, tmp_path: Path) -> None:
    old = tmp_path / "ccp"
    text = '#!/bin/sh\ncase $1 in drive*) echo "ccp: words refused" >&2; exit 2;; esac\nexec %s "$@"\n'
    old.write_text(text % program, encoding="utf-8")
    old.chmod(0o755)
    made = compare(old, tmp_path / "out", "reno,mine=%s" % AIMD, "--quiet")
    said = "the sender mine is an agent outside, and %s has no mode drive" % old
    assert made.status == 1 and said in made.errors


def test_other_commands_refuse_it() -> None:
    made: Any = command("scenario", "--senders", "mine=%s" % AIMD, TRACES[0])
    assert made.status == 2 and "is an agent outside: `ccp compare` runs one" in made.errors
