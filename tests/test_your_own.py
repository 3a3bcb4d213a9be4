"""docs/your-own.md: examples/delay.portus and examples/agent.py."""
from __future__ import annotations

import json
import os
import re
import select
import struct
import subprocess
import sys
from pathlib import Path
from typing import Optional

import pytest
from support import EXAMPLES, REPOSITORY, TRACES, Ran, ccp, command, ran

from ccp_tools import program as programs
from ccp_tools.tables import PRIMITIVES

DELAY = EXAMPLES / "delay.portus"
AGENT = EXAMPLES / "agent.py"
LIVE = EXAMPLES / "live.json"


def agent(program: Path, *words: object, given: Optional[str] = None) -> Ran:
    return ran([sys.executable, AGENT, "--ccp", program, *words], given)


# ---- the program


def test_the_page_shows_the_example() -> None:
    """Each piece of a program on the page is one of examples/delay.portus."""
    page = (REPOSITORY / "docs" / "your-own.md").read_text(encoding="utf-8")
    pieces = re.findall(r"```\n(\((?:def|when) .*?)```", page, re.DOTALL)
    assert len(pieces) >= 2
    for piece in pieces:
        assert piece in DELAY.read_text(encoding="utf-8") + "\n"


def test_the_shared_example_has_the_program() -> None:
    scenario = json.loads((EXAMPLES / "delay-shared.json").read_text(encoding="utf-8"))
    assert scenario["programs"]["delay"] == DELAY.read_text(encoding="utf-8")


def test_delay_keeps_the_queue_short_and_fills_the_link(program: Path) -> None:
    """On each trace: as fast as Reno to one per cent, without a loss, and no agent changes its program."""
    grid = ["--senders", "reno,delay=%s" % DELAY, "--queue", 100, "--delay-ms", 20, "--acks", 8000]
    made = command("scenario", *grid, *TRACES)
    assert made.status == 0, made.errors
    rows = programs.run_table(made.output, program=program).rows
    assert len(rows) == 6
    for reno, delay in zip(rows[::2], rows[1::2]):
        assert delay["now"] <= 1.01 * reno["now"]
        assert (delay["lost"], delay["faults"], delay["epochs"]) == (0, 0, 1)
        assert delay["peak"] < reno["peak"] / 2


def test_delay_survives_losses_and_timeouts(program: Path) -> None:
    """Losses in a row, a link that stops for long, and a queue of one packet are no fault."""
    case = {"agent": "reno", "trace": "gaps", "mss": 1448, "queue": 1, "delay_us": 0, "timeout_us": 1000}
    case.update(acks=3000, ss="delay", ca="delay")
    lost = dict(case, name="lost", queue=50, losses=[*range(40), *range(90, 140)])
    scenario = {"version": 1, "programs": {"delay": DELAY.read_text(encoding="utf-8")}}
    scenario.update(traces={"gaps": "0\n0\n7\n9000\n"}, cases=[dict(case, name="queue"), lost])
    rows = programs.run_table(scenario, program=program).rows
    assert [(row["faults"], row["epochs"]) for row in rows] == [(0, 1), (0, 1)]
    assert rows[1]["timeouts"] > 0


# ---- the agent


def test_agent_answers_as_the_built_in_one(program: Path) -> None:
    """The agent's reports and answers are those of the built-in Reno on the same case."""
    text = LIVE.read_text(encoding="utf-8")
    timeline = ccp("timeline", given=text).output
    tickets = [line for line in timeline.split("flow 1 ")[0].splitlines() if line.startswith("ticket")]
    printed = agent(program, "-", given=ccp("acks", given=text).output)
    assert printed.status == 0, printed.errors
    answers = printed.output.splitlines()[:-1]
    assert len(answers) == len(tickets) > 0
    for ticket, answer in zip(tickets, answers):
        assert set(answer.split()[1:]) <= set(ticket.split())


def test_agent_meets_a_timeout_and_a_fault(program: Path) -> None:
    """A timeout brings slow start with one segment. A program that faults is started again."""
    form = "now=%d000 bytes_acked=1448 packets_acked=1 rtt_sample_us=21000 bytes_in_flight=14480"
    lines = [form % (21 * at) for at in range(1, 9)]
    lines.append("now=400000 lost_pkts_sample=10 was_timeout=1 rtt_sample_us=21000")
    lines.append("now=421000 bytes_acked=%d rtt_sample_us=21000" % (2**64 - 1))
    lines.append("now=422000 bytes_acked=1 rtt_sample_us=21000")
    printed = agent(program, "-", given="\n".join(lines) + "\n")
    assert printed.status == 0, printed.errors
    assert re.search(r"loss=10 .*reply=change:0:1448:7240", printed.output)
    assert "fault reply=change:0:1448:7240" in printed.output


BAD = [("now=1\nnow=x\n", "line 2"), ("now=1 colour=3\n", "no colour"), ("", "no acknowledgements")]


@pytest.mark.parametrize("text, place", BAD)
def test_agent_says_what_is_wrong(program: Path, tmp_path: Path, text: str, place: str) -> None:
    path = tmp_path / "bad.acks"
    path.write_text(text, encoding="utf-8")
    printed = agent(program, path)
    assert printed.status == 1 and not printed.output
    assert place in printed.errors and printed.errors.count("\n") == 1


def test_agent_names_what_is_not_there(program: Path) -> None:
    for words, given in (([program, "no-such-file"], None), (["/no/ccp", "-"], "now=1\n")):
        printed = ran([sys.executable, AGENT, "--ccp", *words], given)
        assert printed.status == 1 and printed.errors.count("\n") == 1
        assert "/no" in printed.errors or "no-such-file" in printed.errors


def test_agent_needs_nothing_beside_it(program: Path, tmp_path: Path) -> None:
    """A copy elsewhere works, since it is there to be copied and changed."""
    copy = tmp_path / "mine.py"
    copy.write_bytes(AGENT.read_bytes())
    acks = ccp("acks", given=LIVE.read_text(encoding="utf-8")).output
    done = ran([sys.executable, copy, "--ccp", program, "-"], acks, cwd=tmp_path, env={"PYTHONPATH": ""})
    assert done.status == 0 and done.output == agent(program, "-", given=acks).output


def test_agent_knows_the_primitives() -> None:
    text = AGENT.read_text(encoding="utf-8")
    named = re.search(r"PRIMITIVES = \((.*?)\)\.split\(\)", text, re.DOTALL)
    assert named and re.findall(r"[a-z_]+", named.group(1)) == PRIMITIVES


def test_feed_answers_a_frame_before_it_reads_on(program: Path) -> None:
    """The answer to a frame comes while the input is still open."""
    create = struct.pack("<BBBBHHIIQI", 1, 1, 0, 0, 0, 0, 64, 28, 0, 0)
    feed = subprocess.Popen([str(program), "feed"], stdin=subprocess.PIPE, stdout=subprocess.PIPE)
    assert feed.stdin and feed.stdout
    try:
        for _ in range(3):
            feed.stdin.write(create)
            feed.stdin.flush()
            ready, _, _ = select.select([feed.stdout], [], [], 10)
            assert ready, "no answer within 10 seconds"
            answer = os.read(feed.stdout.fileno(), 64)
            assert len(answer) == 21 and answer[0] == 8
    finally:
        feed.stdin.close()
        feed.wait()
