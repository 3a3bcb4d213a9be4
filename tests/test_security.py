"""Tests of what SECURITY.md says of the program: what a refusal prints, how long an input may be, and which stack is
enough. What it says of compare.toml, of agents and of machines has its tests beside those of their commands."""
from __future__ import annotations

import re
import signal
import subprocess
from pathlib import Path
from typing import List

import pytest
from support import EXAMPLES, ccp

from ccp_tools.program import identity
from ccp_tools.tables import MODES

MIB = 1 << 20
DRIVE_TEXTS = ["drive-table", "drive-timeline", "drive-acks"]


def frames(name: str) -> bytes:
    """The frames of an example, whose file has them in hex."""
    lines = (EXAMPLES / name).read_text(encoding="utf-8").splitlines()
    return bytes.fromhex("".join(line for line in lines if not line.startswith("#")))


def test_feed_and_drive_alone_have_answered_when_they_refuse() -> None:
    feed, driven = frames("feed.hex"), (EXAMPLES / "driven.drive").read_bytes()
    for mode, given in (("feed", feed), ("drive", driven)):
        whole, cut = ccp(mode, given=given), ccp(mode, given=given[:-3])
        assert cut.status == 3 and cut.errors.startswith("ccp: input refused: frame cut at")
        assert cut.output and whole.output.startswith(cut.output)
    for mode in DRIVE_TEXTS:
        cut = ccp(mode, given=driven[:-3])
        assert (cut.output, cut.status) == ("", 3) and cut.errors.startswith("ccp: input refused: frame cut at")
    for mode in ("campaign", "timeline", "live"):
        cut = ccp(mode, given=(EXAMPLES / "live.json").read_bytes()[:-3])
        assert (cut.output, cut.status) == ("", 3)


@pytest.mark.parametrize("mode", ["check", "campaign", "live", "shared", "rollout"])
def test_an_input_has_at_most_1_mib(mode: str) -> None:
    refused = ccp(mode, given=b" " * (MIB + 1))
    assert refused == ("", "ccp: input refused: more than 1048576 bytes\n", 3)


@pytest.mark.parametrize("mode", ["audit", "drive", *DRIVE_TEXTS])
def test_what_follows_a_scenario_may_be_longer(mode: str) -> None:
    """The scenario itself may not. Rows of rows/ have an input of more than 64 MiB."""
    name = "live.json" if mode == "audit" else "driven.json"
    scenario = (EXAMPLES / name).read_bytes() + b"---\n"
    padded = scenario.replace(b"{", b"{" + b" " * MIB, 1)
    assert ccp(mode, given=padded).errors == "ccp: input refused: more than 1048576 bytes\n"
    if mode == "audit":
        judged = ccp(mode, given=scenario + b"x" * 2 * MIB)
        assert judged.errors == "" and judged.status == 0
    else:
        sent = frames("driven.hex")
        refused = ccp(mode, given=scenario + sent * (MIB // len(sent) + 1) + b"\xff" * 16)
        place = re.fullmatch(r"ccp: input refused: frame Kind at (\d+)\n", refused.errors)
        assert place and int(place.group(1)) > MIB and refused.status == 3, refused.errors


def words_of(mode: str) -> List[str]:
    """A mode with an example, its input, and as many threads as it takes."""
    names = {"check": "reno_ss.portus", "fold": "measurement-program.ccp", "campaign": "campaign.json"}
    names.update({"rollout": "rollout.json", "feed": "feed.hex", "audit": "live.json"})
    kind = "driven.drive" if mode.startswith("drive") else "shared.json" if mode.startswith("shared") else "live.json"
    return [mode, str(EXAMPLES / names.get(mode, kind))]


def ended(program: Path, kib: int, mode: str) -> int:
    """How a run of a mode with 32 threads of each kind ends, whose stack has some KiB."""
    name, path = words_of(mode)
    given = Path(path).read_bytes()
    if mode == "feed":
        given = frames("feed.hex")
    if mode == "audit":
        given += b"---\n" + ccp("live", given=given).output.encode()
    threads = ["--workers=32", "--datapaths=32", "--agents=32"]
    words = ["bash", "-c", 'ulimit -c 0; ulimit -s "$1"; exec "${@:2}"', "bash", str(kib), str(program), *threads, name]
    return subprocess.run(words, input=given, stdout=subprocess.DEVNULL, stderr=subprocess.DEVNULL).returncode


def test_which_stack_is_enough(program: Path) -> None:
    if not identity(program).is_proved:
        pytest.skip("the unproved program has checks, which need more stack")
    assert {mode: status for mode in MODES if (status := ended(program, 512, mode))} == {}
    assert ended(program, 128, "campaign") == -signal.SIGSEGV
