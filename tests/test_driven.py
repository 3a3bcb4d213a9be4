"""The reference model of `drive` and its texts, and the program where it has these modes."""
from __future__ import annotations

import json
import os
import re
import select
import subprocess
import sys
from pathlib import Path
from random import Random
from typing import Any, Dict, Iterator, List, Tuple

import pytest
from rows_of import runs_of
from support import EXAMPLES, Ran, ran, shown, stand_in

from ccp_tools import program as programs
from ccp_tools.reference import driven, scenes, wire
from ccp_tools.reference.agents import Change, Reply, Update
from ccp_tools.reference.flow import Flow, Programs
from ccp_tools.tables import LIMITS, PRIMITIVES

EXAMPLE = json.loads((Path(__file__).parent / "data" / "driven.json").read_text(encoding="utf-8"))
HEAD = EXAMPLE["scenario"].encode() + b"\n---\n"
SENT = [bytes.fromhex(sent) for _, sent in EXAMPLE["sent"]]
ANSWERS = [bytes.fromhex(answer) for _, answer in EXAMPLE["answers"]]
WHOLE = HEAD + b"".join(SENT)
TEXTS = [mode for mode in driven.MODES if mode != "drive"]
NO_CASES = b'{"version":1,"traces":{},"cases":[]}'


def driven_by(driver: Path, mode: str, data: bytes) -> Ran:
    """A run of a mode of `drive`."""
    return ran([driver, mode], data)


def bytes_of(text: str) -> bytes:
    """The bytes of an output."""
    return text.encode("utf-8", "surrogateescape")


# ---- the worked example


def test_frames_of_the_example(driver: Path) -> None:
    made = driven_by(driver, "drive", WHOLE)
    assert (made.status, made.errors) == (0, "") and bytes_of(made.output) == b"".join(ANSWERS)


@pytest.mark.parametrize("mode", TEXTS)
def test_texts_of_the_example(driver: Path, mode: str) -> None:
    for more in (b"", SENT[0]):
        assert driven_by(driver, mode, WHOLE + more) == Ran(
            shown("formats.md", "./ccp %s examples/driven.drive" % mode), "", 0
        )


def test_the_end_of_the_frames(driver: Path) -> None:
    """Which answers come, and how the input is refused."""
    refused = b"".join(ANSWERS)
    ends: Dict[bytes, Tuple[bytes, str]] = {
        HEAD: (ANSWERS[0], "frame cut at 335"),
        WHOLE[:-5]: (refused, "frame cut at 463"),
        HEAD + b"\t": (ANSWERS[0], "frame Kind at 335"),
        WHOLE + SENT[0]: (refused + wire.refused(0, 3, 0), ""),
        WHOLE + wire.create(0, 1, 1) + b"\4": (refused, "frame cut at 517"),
        NO_CASES + b"\n---\n": (b"", ""),
        NO_CASES + b"\r\n---\r\n": (b"", ""),
        WHOLE.replace(b"\n---\n", b"\n"): (b"", "no separator"),
        NO_CASES + b"\n---": (b"", "no separator"),
        b"": (b"", "no separator"),
        b"---\n": (b"", "json"),
        HEAD.replace(b'"mss":1500,', b""): (b"", "missing cases[0].mss"),
        HEAD.replace(b'"acks":5', b'"acks":65537'): (b"", "range cases[0].acks"),
    }
    for data, (output, reason) in ends.items():
        line = "ccp: input refused: %s\n" % reason if reason else ""
        made = driven_by(driver, "drive", data)
        assert (made.status, made.errors) == (3 if reason else 0, line)
        assert bytes_of(made.output) == output
        text = driven_by(driver, "drive-table", data)
        assert (text.status, text.errors) == (made.status, line) and bool(text.output) == (not reason)


def test_members_of_agents_are_ignored(driver: Path) -> None:
    data = WHOLE.replace(b'"name":"a",', b'"name":"a","agent":7,"ss":[],"ca":"x","start_us":-1,')
    assert bytes_of(driven_by(driver, "drive", data).output) == b"".join(ANSWERS)


def answer_from(stream: Any, count: int) -> bytes:
    """The next bytes of a stream, which have to come while nothing more is sent."""
    made = b""
    while len(made) < count:
        assert select.select([stream], [], [], 60)[0], "nothing comes"
        piece = os.read(stream.fileno(), count - len(made))
        assert piece, "the stream ends"
        made += piece
    return made


def test_each_answer_comes_before_the_next_read(driver: Path) -> None:
    """Also where a frame comes in two pieces."""
    with subprocess.Popen([driver, "drive"], stdin=subprocess.PIPE, stdout=subprocess.PIPE) as run:
        assert run.stdin and run.stdout
        # what is written after each frame
        expected = [HEAD, *SENT], [ANSWERS[0], ANSWERS[1], ANSWERS[2], ANSWERS[3], ANSWERS[4], ANSWERS[5], b""]
        for sent, answer in zip(*expected):
            for piece in (sent[:7], sent[7:]):
                os.write(run.stdin.fileno(), piece)
            assert answer_from(run.stdout, len(answer)) == answer
        run.stdin.close()
        assert run.stdout.read() == b"" and run.wait(60) == 0


# ---- the pieces in which an input comes, and parts of it


def hostile_inputs(count: int) -> Iterator[bytes]:
    """Random inputs, good and bad, as the generator makes them."""
    from ccp_tools.reference import trials

    for index in range(count):
        yield trials.drive(Random("pieces:%d" % index)).data


def test_the_pieces_of_an_input_change_nothing() -> None:
    draw = Random(4)
    for data in hostile_inputs(12):
        whole = driven.run("drive", data)
        drive, written, at = driven.Drive(), b"", 0
        while at < len(data):
            size = draw.choice([1, 3, 40, 1000])
            written, at = written + drive.take(data[at : at + size]), at + size
        assert driven.ended("drive", drive, written) == whole


def test_the_answers_to_a_beginning_are_a_beginning_of_the_answers() -> None:
    draw = Random(5)
    for data in hostile_inputs(12):
        whole = driven.run("drive", data).output
        begin = data.index(b"---") + 4
        for _ in range(4):
            part = driven.run("drive", data[: draw.randrange(begin, len(data) + 1)])
            assert whole.startswith(part.output)


def test_frames_after_the_last_flow_change_no_text() -> None:
    more = wire.update(0) + wire.ack(0, {}) + wire.change(5, 3, [], 2)
    for mode in TEXTS:
        assert driven.run(mode, WHOLE + more) == driven.run(mode, WHOLE)
    assert driven.run("drive", WHOLE + more).output == b"".join(ANSWERS) + wire.refused(0, 3, 0) + wire.refused(
        5, 3, 0, 2
    )


# ---- limits


def test_a_scenario_of_the_most_bytes(driver: Path) -> None:
    most = LIMITS["input_bytes"]
    long = "ccp: input refused: more than %d bytes\n" % most
    padded = NO_CASES + b" " * (most - len(NO_CASES) - 1) + b"\n"
    assert driven_by(driver, "drive", padded + b"---\n") == Ran("", "", 0)
    assert driven_by(driver, "drive", padded) == Ran("", "ccp: input refused: no separator\n", 3)
    for data in (b" " + padded + b"---\n", padded + b"---", b" " * (most + 1), b" " * (2 * most)):
        assert driven_by(driver, "drive", data) == Ran("", long, 3)


@pytest.mark.slow
def test_an_input_of_the_most_bytes(driver: Path) -> None:
    most = LIMITS["audit_bytes"]
    frame = wire.measure(0, 0, 0, (0, 1), (0, 1, 2), [1] * 64, 2)
    head = NO_CASES + b"\n"
    head += b" " * ((most - len(head) - 4) % len(frame)) + b"\n---\n"
    head = head.replace(b" \n---", b"\n---")
    count = (most - len(head)) // len(frame)
    data = head + count * frame
    assert len(data) == most
    long = "ccp: input refused: more than %d bytes\n" % most
    assert driven_by(driver, "drive-table", data).status == 0
    for more in (b"\t", frame):
        assert driven_by(driver, "drive-table", data + more) == Ran("", long, 3)
    cut = driven_by(driver, "drive-table", data[:-1])
    assert cut.errors == "ccp: input refused: frame cut at %d\n" % (most - len(frame))
    bad = driven_by(driver, "drive-table", data[: -len(frame)] + b"\t" + frame)
    assert bad.errors == "ccp: input refused: frame Kind at %d\n" % (most - len(frame))


# ---- the model's parts against the program's other modes


class Recorded(Flow):
    """A flow whose agent's replies are kept as frames."""

    def __init__(self, *given: Any) -> None:
        self.frames: List[bytes] = []
        super().__init__(*given)

    def _change(self, change: Change) -> None:
        super()._change(change)
        names = self.programs[self.program].controls
        caps = [(wire.CONTROL, names.index(name), value) for name, value in self.set_by(change) if name in names]
        values = [(wire.IMPLICIT, wire.CWND, change.window), *caps]
        self.frames.append(wire.change(self.number, self.program, values))

    def set_by(self, change: Change) -> List[Tuple[str, int]]:
        """What a change sets beside the window."""
        return [("cap", change.cap), ("mss", self.case["mss"])]

    def _reply(self, subject: Any) -> Reply:
        reply = super()._reply(subject)
        if not isinstance(reply, Change):
            values = [(wire.IMPLICIT, wire.CWND, reply.window)] if isinstance(reply, Update) else []
            self.frames.append(wire.update(self.number, values))
        return reply


def frames_of_agents(scenario: Dict[str, Any]) -> bytes:
    """What the agents of a scenario answer, as frames."""
    known = Programs(scenario)
    made = b""
    for number, case in enumerate(scenario["cases"]):
        flow = Recorded(number, case, scenario["traces"], known)
        flow.run_campaign_word()
        made += b"".join(flow.frames)
    return made


def small(name: str) -> Dict[str, Any]:
    """An example's scenario with at most 12 cases of at most 300 acknowledgements."""
    made: Dict[str, Any] = json.loads((EXAMPLES / name).read_text(encoding="utf-8"))
    made["cases"] = [{**case, "acks": min(case["acks"], 300)} for case in made["cases"][:12]]
    return made


@pytest.mark.parametrize("name", ["campaign.json", "live.json"])
def test_the_frames_of_an_agent_give_the_agents_run(program: Path, name: str) -> None:
    """Its row, its acknowledgements, and its timeline but for the form of its replies."""
    scenario = small(name)
    data = json.dumps(scenario).encode() + b"\n---\n" + frames_of_agents(scenario)
    own = re.compile(r"(?m)agent=\w+")
    for mode, of in (("drive-table", "campaign"), ("drive-acks", "acks"), ("drive-timeline", "timeline")):
        made = driven.run(mode, data)
        assert made.status == 0, made.errors
        printed = programs.run(of, scenario, program=program).output
        if of == "campaign":
            printed = re.sub(r"(?m)^(\S+) (reno|cubic) ", r"\1 own ", printed)
        shown = own.sub("agent=own", re.sub(r"reply=(\w+)\S*", r"reply=\1", printed))
        assert re.sub(r"reply=(\w+)\S*", r"reply=\1", made.output.decode()) == shown


def test_scenarios_are_refused_as_live_refuses_them(program: Path) -> None:
    check = driven.check_of(str(program))
    count = 0
    for name, _, given, refused in runs_of({"live"}):
        if len(given) > LIMITS["input_bytes"]:
            continue
        try:
            scenes.scene_of(given, "live", check)
            found = None
        except scenes.Refused as why:
            found = str(why)
        assert found == refused, name
        count += 1
    assert count > 100


def test_frames_are_refused_as_feed_refuses_them(program: Path) -> None:
    """Frames in which a byte was changed, or that are cut."""
    draw = Random(6)
    installs = programs.run("campaign", NO_CASES, wire=True, program=program).output.split("\n")
    whole = [bytes.fromhex(line.split(" ")[2]) for line in installs if line.startswith("install")]
    whole += [
        wire.create(1, 2, 3, 2),
        wire.measure(0, 1, 2, (3, 4), (5, 6, 7), [8, 9]),
        wire.measure(0, 1, 2, (3, 4), (5, 6, 7), [8, 9], 2),
        wire.update(0, [(3, 63, 1), (4, 4, 2), (4, 5, 3)]),
        wire.change(0, 7, [(3, 0, 1)], 2),
        wire.fault(0, 1, 2, 3, (2, 4), (5, 6)),
        wire.fault(0, 1, 2, 3, (2, 4), (5, 6), 2),
        wire.ack(0, dict.fromkeys(PRIMITIVES, 1)),
        wire.refused(0, 9, 5),
    ]
    for number in range(150):
        one = bytearray(draw.choice(whole))
        at = draw.choice([draw.randrange(16), draw.randrange(len(one))])
        one[at] = draw.choice([0, 1, 5, 64, 65, draw.randrange(256), one[at] ^ 1])
        data = bytes(one[: draw.choice([len(one), len(one), at + 1, draw.randrange(len(one))])])
        assert feed_refusal(data) == refusal_by_feed(program, data), (number, data.hex())


def feed_refusal(data: bytes) -> str:
    """How the model refuses one frame, or the empty text."""
    try:
        return "" if not data or wire.frame_at(data, 0, len(data)).length == len(data) else "more"
    except wire.Bad as bad:
        return "frame %s at %d" % (bad.kind, bad.offset)
    except wire.Cut:
        return "frame cut at 0"


def refusal_by_feed(program: Path, data: bytes) -> str:
    """How `feed` refuses it."""
    errors = ran([program, "feed"], data).errors
    return errors[len("ccp: input refused: ") : -1] if errors else ""


# ---- the generator, and the stand-in


def test_the_generator_tries_drive(tmp_path: Path) -> None:
    words = ["--count", "12", "--seed", "2", "--jobs", "1", "--trials", "drive,refused drive"]
    done = ran([sys.executable, "-m", "ccp_tools.reference.generate", *words, "--ccp", stand_in(tmp_path)])
    assert done.status == 0 and not done.errors and "0 failed" in done.output, done.output


def test_the_generator_finds_what_is_wrong_in_drive(tmp_path: Path) -> None:
    """A driver that changes a byte that it writes."""
    wrong = tmp_path / "wrong"
    wrong.write_text("#!/bin/sh\n%s \"$@\" | tr '\\001' '\\002'\n" % stand_in(tmp_path), encoding="utf-8")
    wrong.chmod(0o755)
    words = ["--count", "8", "--seed", "2", "--jobs", "1", "--trials", "drive"]
    done = ran([sys.executable, "-m", "ccp_tools.reference.generate", *words, "--ccp", wrong])
    assert done.status == 1 and "and expected is" in done.output, done.output


def test_the_generator_leaves_out_what_a_program_has_not(tmp_path: Path, program: Path) -> None:
    """A program that refuses the words of `drive` is tried on the other modes."""
    old = tmp_path / "old"
    text = '#!/bin/sh\ncase $1 in drive*) echo "ccp: words refused" >&2; exit 2;; esac\nexec %s "$@"\n'
    old.write_text(text % program, encoding="utf-8")
    old.chmod(0o755)
    words = [sys.executable, "-m", "ccp_tools.reference.generate", "--count", "4", "--jobs", "1", "--ccp", old]
    done = ran(words)
    assert done.status == 0 and "0 failed" in done.output and not re.search(r" drive$", done.output, re.MULTILINE)
    asked = ran([*words, "--trials", "drive"])
    assert asked.status == 1 and "has no mode drive" in asked.errors


def test_words_of_the_stand_in() -> None:
    for words in ([], ["feed"], ["drive", "drive"], ["drive", "--x"]):
        done = ran([sys.executable, "-m", "ccp_tools.reference.driven", *words])
        assert done == Ran("", "ccp: words refused\n", 2)


def test_the_stand_in_asks_whether_programs_are_accepted(program: Path) -> None:
    data = HEAD.replace(b"(gain 1)", b"(gain x)")
    words = [sys.executable, "-m", "ccp_tools.reference.driven", "--ccp", program, "drive"]
    assert ran(words, data).errors == "ccp: input refused: program p Misplaced at 1:34\n"
