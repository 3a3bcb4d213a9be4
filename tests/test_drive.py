"""Sessions of agents with `drive`: good ones, and every bad one ends as docs/drive.md says."""
from __future__ import annotations

import copy
import json
import math
import os
import pickle
import re
import signal
import subprocess
import sys
import time
from pathlib import Path
from typing import Any, Dict, List

import pytest
from support import REPOSITORY, Ran, ran, require, shown

require("pandas")
from ccp_tools import drive  # noqa: E402
from ccp_tools import program as programs  # noqa: E402
from ccp_tools.drive import Agent, Change, Create, Fault, Refused, Report, Session, Update  # noqa: E402
from ccp_tools.drive.session import PROBE  # noqa: E402
from ccp_tools.errors import CcpError  # noqa: E402
from ccp_tools.reference import wire  # noqa: E402

EXAMPLE = json.loads((Path(__file__).parent / "data" / "driven.json").read_text(encoding="utf-8"))
SCENARIO: Dict[str, Any] = json.loads(EXAMPLE["scenario"])
HEAD = EXAMPLE["scenario"].encode() + b"\n---\n"
# how long a program may be silent, in seconds
SOON = 30.0
# faults at the fourth acknowledgement
FAULTY = "(def (Report (volatile n 0)) (left 3))\n(when true (:= left (- left 1)) (report))"


def text_of(mode: str) -> str:
    """What a mode prints of the example's run."""
    return shown("formats.md", "./ccp %s examples/driven.drive" % mode)


def session(driver: Path, scenario: Any = EXAMPLE["scenario"].encode(), **more: Any) -> Session:
    """A session with a driver; the scenario is the example's."""
    more.setdefault("timeout", SOON)
    return Session(scenario, program=driver, **more)


def with_cases(count: int, **more: Any) -> Dict[str, Any]:
    """The example's scenario with its case this many times."""
    cases = [{**SCENARIO["cases"][0], "name": "c%d" % at, **more} for at in range(count)]
    return {**SCENARIO, "cases": cases}


# ---- the worked example


def test_the_example(driver: Path, tmp_path: Path) -> None:
    """Its events, what it refuses, and the texts of its recording."""
    record = tmp_path / "run.drive"
    with session(driver, record=record) as run:
        assert run.event == Create(0, "a", 4500, 1500)
        with pytest.raises(drive.FrameRefused, match="an update came before the flow's first change") as refused:
            run.update()
        assert (refused.value.reason, refused.value.index, refused.value.flow) == (6, 0, 0)
        with pytest.raises(drive.FrameRefused, match=r"no program 7: .* p \(3\) \(reason 6, index 7\)"):
            run.change(7)
        first = run.change("p", cwnd=6000, gain=2)
        assert first == Report(0, "a", "p", 0, 0, 2, 40000, 6000, 0, {"acked": 3000}) and first is run.event
        second = run.update()
        assert isinstance(second, Report) and (second.first, second.end, second["acked"]) == (2, 4, 3000)
        assert run.update(cwnd=9000) is None and run.event is None
        kept = run.recording
    assert record.read_bytes() == kept
    for mode in ("drive-table", "drive-timeline", "drive-acks"):
        assert ran([driver, mode], kept).output == text_of(mode)


def test_a_run_as_a_loop(driver: Path) -> None:
    """Flows come one after another, each from its Create on."""
    seen: List[str] = []
    with session(driver, with_cases(3)) as run:
        for event in run:
            seen.append("%s %s" % (type(event).__name__, event.case))
            if isinstance(event, Create):
                run.change(3)
            else:
                run.answer(None)
    assert seen == [what + " c%d" % at for at in range(3) for what in ("Create", "Report", "Report")]


@pytest.mark.parametrize("kind", ["dict", "path", "text of a path", "bytes", "text"])
def test_forms_of_a_scenario(driver: Path, tmp_path: Path, kind: str) -> None:
    path = tmp_path / "scenario.json"
    path.write_text(EXAMPLE["scenario"], encoding="utf-8")
    given = {"dict": SCENARIO, "path": path, "text of a path": str(path), "bytes": path.read_bytes()}.get(kind)
    with session(driver, given or "\n" + EXAMPLE["scenario"]) as run:
        for _ in run:
            run.change("p")
        assert run.recording.lstrip().startswith(b"{") and b"\n---\n\x05\1" in run.recording


def test_a_scenario_without_cases(driver: Path) -> None:
    with session(driver, {"version": 1, "traces": {}, "cases": []}) as run:
        assert run.event is None and list(run) == []


def test_a_fault_has_its_place(driver: Path) -> None:
    scenario = {**SCENARIO, "programs": {"f": FAULTY}}
    with session(driver, scenario) as run:
        event: Any = run.change("f")
        while isinstance(event, Report):
            event = run.update(left=3 if event.end == 2 else event.end % 2)
        assert isinstance(event, Fault) and (event.kind, event.program, event.epoch) == ("Underflow", "f", 0)
        assert event.place == "2:22" and event.cwnd == 4500 and event.case == "a"
        while run.event is not None:
            run.change("f", left=9)


def test_wide_programs_report_by_frames_of_the_second_version(driver: Path) -> None:
    names = ["f%d" % at for at in range(40)]
    text = "(def (Report %s))(when true (:= Report.f39 7) (report))" % " ".join("(%s 1)" % name for name in names)
    with session(driver, {**SCENARIO, "programs": {"wide": text}}) as run:
        event = run.change("wide")
        assert isinstance(event, Report) and list(event.fields) == names and event["f39"] == 7 and event.get("x") == 0
        while run.event is not None:
            run.update()


def test_forms_of_a_scenario_that_are_none(driver: Path) -> None:
    """No message has more of a name than its beginning and its end."""
    for given, said in (
        ("x" * 800_000, r"^x{98} \.\. x{98}: File name too long$"),
        (7, "a dict, a text or the path of a file"),
    ):
        with pytest.raises(CcpError, match=said):
            session(driver, given)
    with pytest.raises(CcpError, match="can't be written as JSON: Object of type set"):
        session(driver, {"cases": [{"name": {1}}]})


# ---- answers that aren't sent


def test_values_are_rounded(driver: Path) -> None:
    """To the nearest whole number, and a half to the even one; those of numpy as those of Python."""
    np = require("numpy")
    sent = {4500.5: 4500, 4501.5: 4502, 4500.51: 4501, -0.5: 0, np.float32(7.25): 7, np.int64(9): 9, True: 1}
    for value, number in sent.items():
        with session(driver) as run:
            run.change("p", gain=value)
            run.update(cwnd=value, rate=np.array(number + 0.25))
            frames = [wire.change(0, 3, [(3, 0, number)]), wire.update(0, [(4, 4, number), (4, 5, number)])]
            assert run.recording.endswith(b"".join(frame + PROBE for frame in frames))
            run.close()


def test_bad_answers_are_named(driver: Path) -> None:
    wrong: Dict[str, Any] = {
        "no program is named x: there are reno.ss (0), reno.ca (1), cubic.ca (2), p (3)": lambda run: run.change("x"),
        "the program reno.ss has no control variable gain: it has cap": lambda run: run.change(0, gain=1),
        "a program is named by its name or its number, not by a value of the type list": lambda run: run.change([3]),
        "the program p has no control variable cap: it has gain": lambda run: run.change("p", cap=1),
        "cwnd is nan: a finite number is expected": lambda run: run.change("p", cwnd=math.nan),
        "rate is -inf: a finite number is expected": lambda run: run.change("p", rate=-math.inf),
        "cwnd is '5': a finite number is expected": lambda run: run.change("p", cwnd="5"),
        "cwnd is 1e+300: it is from 0 to": lambda run: run.change("p", cwnd=1e300),
        "cwnd is -0.6: it is from 0 to": lambda run: run.change("p", cwnd=-0.6),
        "an answer is an Update, a Change or None, not 7": lambda run: run.answer(7),
        "rate is -1: it is from 0 to": lambda run: run.change("p", rate=-1),
        "gain is 18446744073709551616: it is from 0": lambda run: run.change("p", gain=2**64),
        "no program runs, so there is no control variable gain": lambda run: run.update(gain=1),
        "program is -1": lambda run: run.change(-1),
    }
    with session(driver) as run:
        before = run.recording
        for text, answer in wrong.items():
            with pytest.raises(drive.BadAnswer, match=re.escape(text)):
                answer(run)
        # nothing of them was sent
        assert run.recording == before and isinstance(run.event, Create)
        run.change("reno.ss", cap=2**64 - 1)
        while run.event is not None:
            run.update()


def test_answers_that_nobody_waits_for(driver: Path) -> None:
    with session(driver) as run:
        while run.event is not None:
            run.change("p")
        with pytest.raises(drive.NotAsked, match="the run is over"):
            run.update()
    with pytest.raises(CcpError, match="the session hasn't begun"):
        session(driver).send(b"")
    with pytest.raises(drive.NotAsked, match="the beginning of flow 0 isn't answered"):
        with session(driver) as run:
            for _ in run:
                pass


# ---- agents that send what they shouldn't


def refusals(run: Session, count: int) -> List[Refused]:
    """The next messages, which are refusals."""
    made = [run.receive() for _ in range(count)]
    assert all(isinstance(one, Refused) for one in made)
    return [one for one in made if isinstance(one, Refused)]


def test_answers_before_they_are_asked_for_are_kept(driver: Path) -> None:
    """All answers at once, before anything is read."""
    with session(driver) as run:
        run.send(wire.change(0, 3, [(4, 4, 6000), (3, 0, 2)]) + wire.update(0) + wire.update(0, [(4, 4, 9000)]))
        assert [type(run.receive()) for _ in range(2)] == [Report, Report]
        table = programs.run("drive-table", run.recording, program=driver).output
    assert table.split("\n")[1] == text_of("drive-table").split("\n")[1]


def test_half_a_frame(driver: Path) -> None:
    """The program waits for the other half; at the end the place is that of the frame's start."""
    with pytest.raises(drive.Ended, match="while flow 0 waited for an answer: ccp: input refused: frame cut at 335$"):
        with session(driver, timeout=5) as run:
            run.send(wire.change(0, 3)[:9])
            with pytest.raises(drive.Silent, match="nothing came from ccp drive within 5 s"):
                run.receive()


def test_frames_that_are_refused(driver: Path) -> None:
    """A Refused has the reason and the index, and the flow goes on waiting."""
    sent = {
        wire.update(0): (0, 6, 0),
        wire.update(1): (1, 3, 0),
        wire.change(7, 3): (7, 3, 0),
        wire.change(0, 4): (0, 6, 4),
        wire.change(0, 15, [(3, 9, 9)]): (0, 6, 15),
        wire.change(0, 16): (0, 4, 16),
        wire.change(0, 2**32 - 1): (0, 4, 2**32 - 1),
        wire.change(0, 3, [(4, 4, 1), (3, 1, 1), (3, 63, 1)]): (0, 8, 1),
        wire.change(0, 1, [(3, 0, 1)]): (0, 8, 0),
    }
    with session(driver) as run:
        for frame, expected in sent.items():
            run.send(frame)
            assert [(one.flow, one.reason, one.index) for one in refusals(run, 1)] == [expected]
        assert isinstance(run.change("p"), Report)
        run.send(wire.update(0, [(3, 1, 1)], 2))
        refusals(run, 1)
        assert isinstance(run.update(), Report) and run.update() is None


def test_refusals_are_named(driver: Path) -> None:
    """By the next answer, where the frame came from elsewhere."""
    with session(driver) as run:
        with pytest.raises(drive.FrameRefused, match=r"program 16: programs have numbers below 16; there are reno.ss"):
            run.change(16)
        run.send(wire.update(5))
        with pytest.raises(drive.FrameRefused, match="the frame is one of flow 5, which doesn't wait") as refused:
            run.change("p")
        assert refused.value.flow == 5
        run.receive()
        run.send(wire.update(0, [(4, 4, 1), (3, 1, 1)]))
        with pytest.raises(drive.FrameRefused, match="value 1 of the frame, counted from 0, is for a control variable"):
            run.update()
        run.close()


def test_frames_that_are_passed_over(driver: Path) -> None:
    """An Install, and the frames that a datapath sends."""
    install = bytes.fromhex(
        programs.run("campaign", {"version": 1, "traces": {}, "cases": []}, wire=True, program=driver).output.split()[2]
    )
    frames = [install, wire.create(0, 1, 1), wire.measure(0, 0, 0, (0, 1), (1, 2, 3), [4]), wire.ack(0, {"now": 5})]
    frames += [wire.fault(0, 0, 0, 1, (1, 1), (1, 1)), wire.refused(0, 3, 0)]
    with session(driver) as run:
        run.send(b"".join(frames))
        assert isinstance(run.change("p"), Report)
        run.send(b"".join(frames))
        assert isinstance(run.update(), Report) and run.update() is None


def test_refused_frames_without_end(driver: Path) -> None:
    """100,000 of them: neither side waits for the other, and the run goes on."""
    count = 100_000
    with session(driver) as run:
        run.send(wire.update(9) * count)
        assert {(one.flow, one.reason) for one in refusals(run, count)} == {(9, 3)}
        assert isinstance(run.change("p"), Report) and isinstance(run.update(), Report) and run.update() is None


@pytest.mark.parametrize(
    "garbage, said",
    [
        (b"\0", "frame Kind at 335"),
        (b"GET / HTTP/1.1\r\n", "frame Kind at 335"),
        (b"\4\3", "frame Version at 336"),
        (wire.update(0) + b"\4\1\x43", "frame Count at 353"),
        (wire.change(0, 3)[:12] + b"\x15\0\0\0", "frame Length at 347"),
        (wire.update(0, [(4, 4, 1)])[:16] + b"\2", "frame Class at 351"),
        (wire.update(0, [(3, 0, 1)])[:17] + b"\x40", "frame Index at 352"),
    ],
)
def test_garbage(driver: Path, garbage: bytes, said: str) -> None:
    """The program ends at the byte, and its line names the place."""
    with pytest.raises(drive.Ended) as ended:
        with session(driver) as run:
            run.send(garbage)
            while True:
                run.receive()
    assert ended.value.status == 3 and ended.value.line == "ccp: input refused: " + said
    assert str(ended.value) == "ccp drive ended while the session waited for it: ccp: input refused: " + said


# ---- closed pipes


CUTS = {
    b"": (b"", "no separator"),
    HEAD[:100]: (b"", "no separator"),
    HEAD: (wire.create(0, 4500, 1500), "frame cut at 335"),
    HEAD + wire.change(0, 3)[:7]: (wire.create(0, 4500, 1500), "frame cut at 335"),
    HEAD + wire.change(0, 3): (None, "frame cut at 355"),
    HEAD + wire.change(0, 3) + wire.update(0): (None, "frame cut at 371"),
    HEAD + wire.change(0, 3) + 2 * wire.update(0): (None, ""),
    HEAD + wire.change(0, 3) + 2 * wire.update(0) + b"\4": (None, "frame cut at 387"),
}


@pytest.mark.parametrize("sent", CUTS, ids=len)
def test_an_agent_that_closes_its_output(driver: Path, sent: bytes) -> None:
    """At each point of a run."""
    output, reason = CUTS[sent]
    made = ran([driver, "drive"], sent)
    line = "ccp: input refused: %s\n" % reason if reason else ""
    assert (made.status, made.errors) == (3 if reason else 0, line)
    assert output is None or made.output.encode("utf-8", "surrogateescape") == output


@pytest.mark.parametrize("sent", [HEAD, HEAD + wire.update(0), HEAD + wire.change(0, 3)], ids=len)
def test_an_agent_that_closes_its_input(driver: Path, sent: bytes) -> None:
    """What the program writes goes nowhere: a write fault."""
    command = [driver, "drive"]
    with subprocess.Popen(command, stdin=subprocess.PIPE, stdout=subprocess.PIPE, stderr=subprocess.PIPE) as run:
        assert run.stdin and run.stdout and run.stderr
        if sent != HEAD:
            run.stdin.write(HEAD)
            run.stdin.flush()
            assert run.stdout.read(1)
        run.stdout.close()
        run.stdin.write(sent[len(HEAD) :] if sent != HEAD else HEAD)
        run.stdin.flush()
        assert run.stderr.read() == b"ccp: write fault\n" and run.wait(SOON) == 5
        run.stdin.close()


@pytest.mark.parametrize("answers", [0, 1, 2])
def test_a_program_that_is_killed(driver: Path, answers: int) -> None:
    """At each point of a run the session names the signal."""
    with pytest.raises(drive.Ended, match="SIGKILL") as ended:
        with session(driver) as run:
            for _ in range(answers):
                run.change("p")
            os.kill(run.pid, signal.SIGKILL)
            run.change("p")
    assert ended.value.status == 128 + signal.SIGKILL


def test_a_program_that_is_killed_before_its_end(driver: Path) -> None:
    with pytest.raises(drive.Ended, match="ccp drive was stopped by SIGTERM"):
        with session(driver) as run:
            while run.event is not None:
                run.change("p")
            os.kill(run.pid, signal.SIGTERM)
            time.sleep(0.2)


def test_scenarios_that_are_refused(driver: Path) -> None:
    """Also where the scenario is no JSON, or too long."""
    wrong = {
        b'{"programs": {"\\ud800": 1}, "cases": [{}]}': "json",
        json.dumps({**SCENARIO, "programs": ["p"]}).encode(): "wrong programs",
        json.dumps({**SCENARIO, "programs": {"p": 7}}).encode(): "wrong programs.p",
        json.dumps({**SCENARIO, "cases": 7}).encode(): "wrong cases",
        b"{": "json",
        b"[]": "wrong ",
        json.dumps({**SCENARIO, "version": 2}).encode(): "range version",
        json.dumps({**SCENARIO, "traces": {"t": "x"}}).encode(): "trace t BadLine 1",
        json.dumps({**SCENARIO, "programs": {"p": "(def)\n(when x (report))"}}).encode(): "program p Unknown at 2:7",
        b" " * (2**20 + 1) + EXAMPLE["scenario"].encode(): "more than 1048576 bytes",
    }
    for text, reason in wrong.items():
        with pytest.raises(drive.Ended) as ended:
            with session(driver, text):
                pass
        assert ended.value.line == ("ccp: input refused: " + reason).strip() and ended.value.status == 3


def test_a_program_that_knows_no_drive(tmp_path: Path) -> None:
    old = tmp_path / "ccp"
    old.write_text("#!/bin/sh\necho 'ccp: words refused' >&2\nexit 2\n", encoding="utf-8")
    old.chmod(0o755)
    with pytest.raises(drive.Ended, match=r"ccp: words refused \(it has no mode drive\)"):
        session(old).start()
    with pytest.raises(CcpError, match="no program at"):
        session(tmp_path / "none").start()


def test_a_program_that_writes_what_it_never_writes(tmp_path: Path) -> None:
    for data, said in (
        (b"\1" * 16 + b"\3\0\0\0" + b"\1" * 99, "what is no frame"),
        (wire.update(0), "never writes"),
        (wire.measure(0, 9, 0, (0, 1), (2, 3, 4), []), "never writes"),
        (wire.fault(0, 3, 0, 0, (2, 65535), (0, 0)), "never writes"),
        (b"", "ended while the session waited|has closed its input"),
    ):
        wrong = tmp_path / "ccp"
        shown = "".join("\\%03o" % one for one in data)
        wrong.write_text("#!/bin/sh\nprintf '%s'\n%s\n" % (shown, "cat > /dev/null" if data else ":"))
        wrong.chmod(0o755)
        with pytest.raises(CcpError, match=said):
            with session(wrong) as run:
                run.finish()


def test_a_recording_that_cannot_be_written(driver: Path, tmp_path: Path) -> None:
    with pytest.raises(CcpError, match="folder"):
        session(driver, record=tmp_path).start()


# ---- agents as classes


class Grows(Agent):
    """Adds what was acknowledged."""

    programs = {"grow": "(def (Report (volatile acked 0)))(when true (:= Report.acked Ack.bytes_acked) (report))"}

    def on_create(self, create: Create) -> Change:
        return Change("grow", cwnd=2 * create.mss)

    def on_report(self, report: Report) -> Any:
        return Update(cwnd=report.cwnd + report["acked"])


def test_an_agent_is_run(driver: Path, tmp_path: Path) -> None:
    """Its texts as frames of pandas, and the same again from the recording."""
    record = tmp_path / "run.drive"
    events: List[Any] = []
    made = drive.run(
        Grows(), with_cases(2, acks=20), program=driver, record=record, timeout=SOON, on_event=events.append
    )
    assert made.recording == record.read_bytes() and len(events) == 42
    table, timeline, acks = made.table(), made.timeline(), made.acks()
    assert list(table["agent"]) == ["own", "own"] and list(table["reports"]) == [20, 20]
    # a case is held by the queue of ten packets
    assert list(table["peak"]) == [3000 + 20 * 1500 - 1500 * int(lost) for lost in table["lost"]]
    assert len(timeline.reports) == 40 and set(timeline.reports["reply"]) == {"update"}
    assert list(timeline.reports["reply_window"][:2]) == [4500, 6000]
    assert len(acks) == 40 and acks["bytes_acked"].sum() == table["acked"].sum()
    again = ran([driver, "drive"], made.recording)
    reports = [one for one in events if isinstance(one, Report)]
    assert again.status == 0 and again.output.encode("utf-8", "surrogateescape").count(b"\2\1\1\0") >= len(reports)
    made.save(tmp_path / "copy")
    assert (tmp_path / "copy").read_bytes() == made.recording and len(made.sha256) == 64
    assert drive.run(Grows(), with_cases(2, acks=20), program=driver).sha256 == made.sha256


def test_a_fault_starts_the_program_again(driver: Path) -> None:
    class Faulty(Agent):
        programs = {"f": FAULTY}

        def on_create(self, create: Create) -> Change:
            return Change("f")

    table = drive.run(Faulty(), with_cases(1, acks=20), program=driver).table()
    assert list(table["faults"]) == [5] and list(table["epochs"]) == [6]


def test_agents_that_answer_wrongly(driver: Path) -> None:
    class NoChange(Grows):
        def on_create(self, create: Create) -> Any:
            return Update(cwnd=1)

    class Raises(Grows):
        def on_report(self, report: Report) -> Any:
            raise RuntimeError("out of ideas")

    with pytest.raises(drive.BadAnswer, match=r"on_create gave Update\(.*: the first answer of a flow is a Change"):
        drive.run(NoChange(), SCENARIO, program=driver)
    with pytest.raises(RuntimeError, match="out of ideas"):
        drive.run(Raises(), SCENARIO, program=driver)
    with pytest.raises(NotImplementedError, match="Agent has no on_create"):
        drive.run(Agent(), SCENARIO, program=driver)
    with pytest.raises(drive.Ended, match="wrong programs"):
        drive.run(Grows(), {**SCENARIO, "programs": 7}, program=driver)
    with pytest.raises(CcpError, match="the agent has a program grow, and the scenario has another one"):
        drive.run(Grows(), {**SCENARIO, "programs": {"grow": "(def)"}}, program=driver)


AGENT_FILE = """
from ccp_tools.drive import Agent, Change, Update
import beside

class Mine(Agent):
    programs = {"mine": beside.TEXT}

    def on_create(self, create):
        return Change("mine", cwnd=beside.WINDOW)

    def on_report(self, report):
        return Update(cwnd=report.cwnd + 1)
"""


@pytest.fixture
def agent_file(tmp_path: Path) -> Path:
    """An agent's file, which imports another one of its folder."""
    path = tmp_path / "agent.py"
    path.write_text(AGENT_FILE, encoding="utf-8")
    (tmp_path / "beside.py").write_text("TEXT = %r\nWINDOW = 7000\n" % Grows.programs["grow"], encoding="utf-8")
    (tmp_path / "scenario.json").write_text(json.dumps(SCENARIO), encoding="utf-8")
    return path


def test_agents_in_files(agent_file: Path, tmp_path: Path) -> None:
    assert type(drive.load_agent(agent_file)).__name__ == "Mine"
    wrong = {
        "x = 1": "it has no class of the kind Agent",
        AGENT_FILE + "\nclass Other(Mine): pass": "it has 2 classes of the kind Agent",
        "agent = 7": "its variable `agent` is no object",
        "def": "SyntaxError: ",
        "1 / 0": "ZeroDivisionError: division by zero",
    }
    for text, said in wrong.items():
        agent_file.write_text(text, encoding="utf-8")
        with pytest.raises(CcpError, match=re.escape(said)):
            drive.load_agent(agent_file)
    agent_file.write_text(AGENT_FILE + "\nclass Other(Mine): pass\nagent = Other()", encoding="utf-8")
    assert type(drive.load_agent(agent_file)).__name__ == "Other"
    with pytest.raises(CcpError, match="No such file"):
        drive.load_agent(tmp_path / "none.py")
    with pytest.raises(CcpError, match="a Python file is expected"):
        drive.load_agent(tmp_path / "scenario.json")


# what an agent does in on_report, and what is said of it
FAILURES = {
    "sys.exit(0)": "SystemExit: 0",
    "sys.exit()": "SystemExit",
    "raise GeneratorExit": "GeneratorExit",
    "raise BaseException('x')": "BaseException: x",
    "raise RuntimeError('two\\nlines')": "RuntimeError: two\nlines",
    "raise RuntimeError('x' * 10**6)": "RuntimeError: %s .. %s" % ("x" * 98, "x" * 98),
    "raise beside.Mute": "Mute: its text can't be made",
    "raise drive.Ended(0, '', 'all is well')": "all is well: ccp drive ended with status 0",
    "report['delivered']": "the report has no field delivered: its fields are acked",
    "report.delivered": "AttributeError: a report has no attribute delivered: its fields are acked, as report[NAME]",
    "json.loads('{')": "JSONDecodeError: Expecting property name enclosed in double quotes: line 1 column 2 (char 1)",
    "Change([])": "",
    "self.again(report)": "RecursionError: maximum recursion depth exceeded",
}


@pytest.mark.parametrize("line", FAILURES)
def test_what_an_agent_raises(program: Path, agent_file: Path, line: str) -> None:
    """It ends the run, with the innermost line of the agent's own file."""
    text = AGENT_FILE.replace("import beside\n", "import beside, json, sys\nfrom ccp_tools import drive\n")
    text = text.replace("        return Update", "        %s\n        return Update" % line)
    agent_file.write_text(text + "\n    def again(self, report):\n        self.again(report)\n", encoding="utf-8")
    beside = agent_file.with_name("beside.py")
    mute = "class Mute(Exception):\n    def __str__(self):\n        raise SystemError\n"
    beside.write_text(beside.read_text(encoding="utf-8") + mute, encoding="utf-8")
    if not FAILURES[line]:
        assert drive.run_file(agent_file, SCENARIO, program=program).recording
        return
    with pytest.raises(drive.AgentFailed) as failed:
        drive.run_file(agent_file, SCENARIO, program=program, timeout=SOON)
    place = "%s:%d" % (agent_file, 17 if "again" in line else 13)
    assert str(failed.value).startswith("the agent failed: %s: %s" % (place, FAILURES[line]))
    assert failed.value.status == 1 and len(str(failed.value)) < 600


# what an agent's file has, and what is said of it before a run
WRONG_FILES = {
    "import sys\nsys.exit(0)": "the agent failed: FILE:2: SystemExit: 0",
    "\nimport nowhere": "the agent failed: FILE:2: ModuleNotFoundError: No module named 'nowhere'",
    "def f(:": "the agent failed: FILE:1: SyntaxError: invalid syntax",
    "import beside": "the agent failed: BESIDE:3: ZeroDivisionError: division by zero",
    "CLASS    def __init__(self): exit(0)": "the agent failed: FILE:3: SystemExit: 0",
    "CLASS    def __init__(self, x): pass": "the agent failed: FILE: TypeError: Mine.__init__() missing 1 required",
    "CLASS    programs = 7": "the agent's programs are 7: texts by their names are expected",
    "CLASS    programs = {'p': 7}": "the agent's programs are {'p': 7}: texts by their names are expected",
    "CLASS    programs = property(lambda self: exit(0))": "the agent failed: FILE:3: SystemExit: 0",
}


@pytest.mark.parametrize("text", WRONG_FILES)
def test_files_that_make_no_agent(tmp_path: Path, text: str) -> None:
    path, beside = tmp_path / "mine.py", tmp_path / "beside.py"
    path.write_text(text.replace("CLASS", "from ccp_tools.drive import Agent\nclass Mine(Agent):\n"), encoding="utf-8")
    beside.write_text("\n\n1 / 0\n", encoding="utf-8")
    sys.modules.pop("beside", None)
    with pytest.raises(CcpError) as wrong:
        drive.load_agent(path)
    said = WRONG_FILES[text].replace("FILE", str(path)).replace("BESIDE", str(beside))
    assert str(wrong.value).startswith(said) and wrong.value.status == 1


def test_answers_name_the_line_that_made_them(program: Path, agent_file: Path) -> None:
    wrong = {
        "Update(cwnd=float('inf'))": "FILE:12: cwnd is inf: a finite number is expected",
        "Update(gain=1)": "FILE:12: the program mine has no control variable gain: it has none",
        "Change('other')": "FILE:12: no program is named other: there are reno.ss",
        "Change(9)": "FILE:12: there is no program 9: there are reno.ss",
        "'cubic'": "FILE:11: an answer is an Update, a Change or None, not 'cubic'",
    }
    for text, said in wrong.items():
        agent_file.write_text(AGENT_FILE.replace("Update(cwnd=report.cwnd + 1)", text), encoding="utf-8")
        with pytest.raises((drive.BadAnswer, drive.FrameRefused)) as refused:
            drive.run_file(agent_file, SCENARIO, program=program, timeout=SOON)
        assert str(refused.value).startswith(said.replace("FILE", str(agent_file)))


def test_reports_can_be_copied() -> None:
    """Also with the error of a field that they don't have."""
    report = Report(0, "a", "p", 0, 0, 2, 40000, 6000, 0, {"acked": 3000})
    assert copy.deepcopy(report) == report == pickle.loads(pickle.dumps(report))
    assert not hasattr(report, "lost") and report.get("lost") == 0
    with pytest.raises(KeyError, match="^the report has no field 7: its fields are acked$"):
        report[7]  # type: ignore[index]


def command(driver: Path, *words: object, given: str | None = None) -> Ran:
    """A run of `python3 -m ccp_tools.drive`."""
    return ran([sys.executable, "-m", "ccp_tools.drive", *words, "--ccp", driver], given)


def test_the_command(driver: Path, agent_file: Path, tmp_path: Path) -> None:
    scenario, record = tmp_path / "scenario.json", tmp_path / "run.drive"
    made = command(driver, agent_file, scenario, "--record", record)
    assert made.status == 0 and made.output.split("\n")[1].startswith("a own 5 5 0 0 1 0 0 7500 7005 ")
    assert ran([driver, "drive-table"], record.read_bytes()).output == made.output
    again = command(driver, agent_file, "-", "--print", "timeline", given=scenario.read_text())
    assert again.output.startswith("flow 0 case=a agent=own\nepoch 0 program=3 at=0 cwnd=7000\n")


def test_the_command_ends_with_its_reader(driver: Path, agent_file: Path, tmp_path: Path) -> None:
    """Silently, where nobody reads what it prints."""
    reading, writing = os.pipe()
    os.close(reading)
    words = [sys.executable, "-m", "ccp_tools.drive", agent_file, tmp_path / "scenario.json", "--ccp", driver]
    env = {**os.environ, "PYTHONPATH": str(REPOSITORY / "src")}
    made = subprocess.run(words, stdout=writing, stderr=subprocess.PIPE, env=env)
    os.close(writing)
    assert (made.returncode, made.stderr) == (141, b"")


def test_the_command_names_what_is_wrong(driver: Path, agent_file: Path, tmp_path: Path) -> None:
    scenario = tmp_path / "scenario.json"
    assert command(driver, agent_file).status == 2
    none = command(driver, agent_file, tmp_path / "none.json")
    assert none.status == 1 and "No such file" in none.errors
    scenario.write_text('{"version": 1, "traces": {}}', encoding="utf-8")
    refused = command(driver, agent_file, scenario)
    assert refused.status == 3 and refused.errors.endswith("ccp: input refused: missing cases\n")
    scenario.write_text(json.dumps(SCENARIO), encoding="utf-8")
    agent_file.write_text(AGENT_FILE.replace("+ 1)", "* float('nan'))"), encoding="utf-8")
    wrong = command(driver, agent_file, scenario)
    assert wrong.status == 1 and wrong.errors == "drive: %s:12: cwnd is nan: a finite number is expected\n" % agent_file
    agent_file.write_text(AGENT_FILE.replace("+ 1)", "/ 0)"), encoding="utf-8")
    failed = command(driver, agent_file, scenario)
    assert (
        failed.status == 1
        and failed.errors == "drive: the agent failed: %s:12: ZeroDivisionError: division by zero\n" % (agent_file)
    )


# agents that end or break the process that they run in, with the status and the line of each
BREAKERS = {
    "sys.exit(0)": (1, "drive: the agent failed: FILE:13: SystemExit: 0\n"),
    "sys.exit('bye')": (1, "drive: the agent failed: FILE:13: SystemExit: bye\n"),
    "self.is_closed = hasattr(self, 'is_closed') or os.close(1)": (
        1,
        "drive: the output can't be written: Bad file descriptor\n",
    ),
    "os.closerange(3, 99)": (1, "drive: the pipes to ccp drive failed: Bad file descriptor\n"),
    "sys.stdout.close()": (1, "drive: the output can't be written: the agent has closed it\n"),
    "raise KeyboardInterrupt": (130, ""),
}


@pytest.mark.parametrize("line", BREAKERS)
def test_agents_that_break_their_process(program: Path, agent_file: Path, tmp_path: Path, line: str) -> None:
    text = AGENT_FILE.replace("import beside\n", "import beside, os, sys\n")
    text = text.replace("    def on_report(self, report):\n", "    def on_report(self, report):\n\n        %s\n" % line)
    agent_file.write_text(text, encoding="utf-8")
    status, said = BREAKERS[line]
    made = command(program, agent_file, tmp_path / "scenario.json")
    assert made == ("", said.replace("FILE", str(agent_file)), status)


def test_an_agent_that_takes_the_output_away(program: Path, agent_file: Path, tmp_path: Path) -> None:
    text = AGENT_FILE.replace("import beside\n", "import beside, sys\nsys.stdout = None\n")
    agent_file.write_text(text, encoding="utf-8")
    made = command(program, agent_file, tmp_path / "scenario.json")
    assert made.status == 0 and made.output.startswith("case agent "), made.errors


def test_options_of_the_command(program: Path, agent_file: Path, tmp_path: Path) -> None:
    scenario = tmp_path / "scenario.json"
    for text in ("nan", "inf", "1e308", "-1", "0", "x"):
        made = command(program, agent_file, scenario, "--timeout", text)
        said = "drive: argument --timeout: %s isn't a number of seconds above 0 and at most 2000000\n" % text
        assert (made.status, made.errors) == (2, said)
    for record in ("/dev/full", str(tmp_path)):
        made = command(program, agent_file, scenario, "--record", record)
        reason = "it is a folder, and a file is expected" if record != "/dev/full" else "No space left on device"
        assert (made.status, made.errors) == (1, "drive: %s: %s\n" % (record, reason))
    kept = scenario.read_bytes()
    made = command(program, agent_file, scenario, "--record", scenario)
    assert made.status == 2 and "the recording would overwrite what the run reads" in made.errors
    assert scenario.read_bytes() == kept
    for seconds in (math.nan, 0, -1.0):
        with pytest.raises(CcpError, match="the timeout is"):
            session(program, timeout=seconds)
