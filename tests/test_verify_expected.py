"""`ccp verify`: its verdicts are the program's, and the line that it expects is the one that was changed."""
from __future__ import annotations

import json
import re
from pathlib import Path
from typing import List

import pytest
from support import ccp, command

CASE = {"name": "a", "agent": "reno", "trace": "t", "mss": 1448, "queue": 10, "delay_us": 20000}
CASE.update(timeout_us=1000000, acks=24)
FAULTY = (
    "(def (Report (volatile acked 0)) (left 9)) (when true (:= left (- left 1))"
    " (:= Report.acked (+ Report.acked Ack.bytes_acked)) (report))"
)
CASES = [
    CASE,
    {**CASE, "name": "b", "agent": "cubic", "losses": [7], "mark": 3},
    {**CASE, "name": "c", "ss": "f", "ca": "f", "slots": 1},
]
SCENARIO = json.dumps({"version": 1, "traces": {"t": "10\n12\n"}, "programs": {"f": FAULTY}, "cases": CASES})


def live(*words: str) -> str:
    """A live text that is the same on every run, so that what a change of it makes is known."""
    ran = ccp("timeline", *words, given=SCENARIO)
    assert ran.status == 0, ran.errors
    return ran.output


def verdict(folder: Path, scenario: str, text: str, status: int, *holds: str) -> str:
    """What is printed of a scenario and a text in files."""
    paths = [folder / "scenario.json", folder / "run.txt"]
    for path, given in zip(paths, (scenario, text)):
        path.write_bytes(given.encode())
    ran = command("verify", *paths)
    assert ran.status == status and not ran.errors, ran
    for part in holds:
        assert part in ran.output
    return ran.output


def test_live_texts(program: Path, tmp_path: Path) -> None:
    assert verdict(tmp_path, SCENARIO, live(), 0) == "yes\n"
    text = live("--datapaths", "3", "--agents", "2")
    assert verdict(tmp_path, SCENARIO + "\n", text, 0) == "yes\n"
    for other in (text.replace("\n", "\r\n"), text[:-1], live("--wire")):
        verdict(tmp_path, SCENARIO, other, 0)
    verdict(tmp_path, '{"version":1,"traces":{},"cases":[]}', "", 0)


def changed(line: str) -> str:
    """A line with another number in it: its last one, or the window of an epoch."""
    return re.sub(r"([0-9]+)([^0-9]*)$", lambda found: str(int(found.group(1)) + 1) + found.group(2), line)


def test_the_line_that_was_changed(program: Path, tmp_path: Path) -> None:
    """Every second line of a text in turn, with another number in it."""
    lines = live().split("\n")[:-1]
    for at, line in list(enumerate(lines))[::2]:
        text = "\n".join([*lines[:at], changed(line), *lines[at + 1 :]]) + "\n"
        flow = sum(other.startswith("end ") for other in lines[:at])
        printed = verdict(tmp_path, SCENARIO, text, 1, "no flow %d\n" % flow, "run.txt:%d: " % (at + 1))
        assert "  expected  %s\n" % line in printed


def test_where_a_text_ends(program: Path, tmp_path: Path) -> None:
    lines = live().split("\n")[:-1]
    for count in range(0, len(lines), 3):
        text = "".join(line + "\n" for line in lines[:count])
        printed = verdict(tmp_path, SCENARIO, text, 1)
        # where it isn't said so, the tickets that are missing were to change the epochs above
        assert "ends before" in printed or "expected" in printed or re.search(r"run.txt:[0-9]+: ", printed)


def test_install_lines_are_counted(program: Path, tmp_path: Path) -> None:
    text = live("--wire")
    installs = text.count("install ")
    assert installs == 4
    where = "run.txt:%d: another line begins flow 0" % (installs + 1)
    verdict(tmp_path, SCENARIO, text.replace("flow 0 case=a", "flow 0 case=b"), 1, "no flow 0\n", where)
    verdict(tmp_path, SCENARIO, text + "more\n", 1, "no flow 3\n", "the text goes on after its last flow")


def test_a_ticket_that_cannot_be(program: Path, tmp_path: Path) -> None:
    text = live()
    early = re.sub(r"taken=([0-9]+)", lambda found: "taken=%d" % (int(found.group(1)) - 1), text, count=1)
    verdict(tmp_path, SCENARIO, early, 1, "no flow 0\n", "can't be taken and answered at its counts")
    late = re.sub(r"taken=[0-9]+ answered=[0-9]+", "taken=25 answered=25", text, count=1)
    verdict(tmp_path, SCENARIO, late, 1, "no flow 0\n", "all 24 acknowledgements are in")


@pytest.mark.parametrize(
    "words", [["-", "-"], ["no-such-file", "-"], ["BAD", "-"], ["BAD"], ["--ccp", "/no/such", "BAD", "-"]]
)
def test_no_verdict(program: Path, tmp_path: Path, words: List[str]) -> None:
    path = tmp_path / "bad.json"
    path.write_text('{"version":2}', encoding="utf-8")
    ran = command("verify", *[str(path) if word == "BAD" else word for word in words])
    assert ran.status == 2 and not ran.output
    assert ran.errors.startswith("ccp verify: ") and ran.errors.count("\n") == 1, ran.errors
    assert words != ["BAD", "-"] or "range version" in ran.errors
