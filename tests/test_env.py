"""The environment for learners: its form, its episodes, and what a step costs."""
from __future__ import annotations

import json
import struct
import time
from pathlib import Path
from typing import Any, Dict, List, Optional

import pytest
from support import ran, require

np = require("numpy")
require("pandas")
from ccp_tools.drive import BadAnswer, Change, Env, Report  # noqa: E402
from ccp_tools.drive.messages import CREATE_FORM, HEAD, measure_form  # noqa: E402
from ccp_tools.drive.pipes import Pipes  # noqa: E402
from ccp_tools.errors import CcpError  # noqa: E402

PROGRAM = (
    "(def (Report (volatile acked 0) (rtt 0)) (gain 3))\n(when true (:= Report.acked (+ Report.acked Ack.bytes_acked))"
)
PROGRAM += " (:= Report.rtt Flow.rtt_sample_us) (fallthrough))\n(when (> Report.acked 2999) (report))"
# faults at its second report
FAULTY = "(def (Report (volatile acked 0)) (left 2))\n(when true (:= left (- left 1)) (report))"


def scenario(count: int, acks: int = 20, text: str = PROGRAM) -> Dict[str, Any]:
    """A scenario of this many cases, each with this many acknowledgements."""
    case = {"trace": "t", "mss": 1500, "queue": 10, "delay_us": 20000, "timeout_us": 1000000, "acks": acks}
    cases = [{"name": "c%d" % at, **case} for at in range(count)]
    return {"version": 1, "programs": {"p": text}, "traces": {"t": "10\n"}, "cases": cases}


def reward_of(report: Report, before: Optional[Report]) -> float:
    """Bytes acknowledged, less a part of the delay."""
    return report["acked"] / 1500 - (report["rtt"] - 30000) / 1e6


def env(driver: Path, given: Any = None, **more: Any) -> Env:
    """An environment over two cases, whose actions are windows."""
    options: Dict[str, Any] = {
        "start": Change("p"),
        "observe": ("acked", "rtt", "cwnd", "now", "x"),
        "act": {"cwnd": (1500, 30_000)},
        "reward": reward_of,
        "timeout": 30,
        **more,
    }
    return Env(given or scenario(2), program=driver, **options)


def test_an_episode(driver: Path) -> None:
    """Ten reports: the first is that of reset, each step has the next one, and the last step has none."""
    with env(driver) as made:
        observation, info = made.reset(seed=1)
        assert observation.tolist() == [3000, 40000, 4500, 40000, 0]
        assert info == {"case": "c0", "faults": 0, "report": info["report"]} and info["report"].end == 2
        seen = []
        truncated = False
        while not truncated:
            observation, reward, terminated, truncated, info = made.step([9000.5])
            seen.append((observation[2], reward))
            assert not terminated and observation.shape == made.observation_space.shape
        assert len(seen) == 10 and seen[0][0] == 9000 and seen[-1] == (9000, 0.0) and info["report"].end == 20
        assert seen[0][1] == pytest.approx(2 - (info["report"]["rtt"] - 30000) / 1e6, abs=0.1)
        with pytest.raises(CcpError, match="no episode is under way"):
            made.step([1])


def test_episodes_are_the_cases(driver: Path, tmp_path: Path) -> None:
    """After the last one the scenario begins anew; the recording of each run is kept."""
    with env(driver, record=tmp_path) as made:
        names = []
        for _ in range(5):
            _, info = made.reset()
            names.append(info["case"])
            while not made.step([6000])[3]:
                pass
        assert names == ["c0", "c1", "c0", "c1", "c0"]
        recordings = [one.recording for one in made.recordings]
        assert len(recordings) == 2 and recordings[0] == recordings[1] == (tmp_path / "run-0.drive").read_bytes()
        table = made.recordings[0].table()
    assert list(table["acks"]) == [20, 20] and list(table["peak"]) == [6000, 6000]


def test_an_episode_that_is_left_is_run_to_its_end(driver: Path) -> None:
    with env(driver) as made:
        assert [made.reset()[1]["case"] for _ in range(3)] == ["c0", "c1", "c0"]
        assert list(made.recordings[0].table()["reports"]) == [10, 10]


def test_actions_are_held_between_their_bounds(driver: Path) -> None:
    act = {"cwnd": (3000, 6000), "gain": (1, 5), "rate": (0, 2**64 - 1)}
    with env(driver, act=act, observe=("cwnd", "rate")) as made:
        made.reset()
        assert made.step([1e9, 0, 77])[0].tolist() == [6000, 77] and made.step([-5, 9, 1e30])[0][0] == 3000
        for action in ([1], 7):
            with pytest.raises(CcpError, match="an action has 3 numbers: cwnd, gain, rate"):
                made.step(action)
        for value in (np.nan, np.inf, -np.inf):
            with pytest.raises(BadAnswer, match="gain is -?(nan|inf): a finite number is expected"):
                made.step([3000, value, 0])
        space = made.action_space
        assert space.shape == (3,) and space.low.tolist() == [3000, 1, 0] and str(space.dtype) == "float64"
        assert space.contains([4000, 1, 0]) and not space.contains([2000, 1, 0]) and not space.contains([1])
        assert space.contains(space.sample(np.random.default_rng(1)))
        assert not made.observation_space.contains([-1, 0])


def test_bounds_of_actions(driver: Path) -> None:
    for bounds, said in (
        ((6, 3), "the least cwnd is 6, above the greatest, 3"),
        ((0, np.inf), "the greatest cwnd is inf"),
    ):
        with pytest.raises(BadAnswer, match=said):
            env(driver, act={"cwnd": bounds})


def test_a_fault_starts_the_program_again(driver: Path) -> None:
    plain: Dict[str, Any] = {"observe": (), "reward": lambda report, before: 1}
    with env(driver, scenario(1, 12, FAULTY), start=lambda create: Change("p", left=3), **plain) as made:
        made.reset()
        faults = []
        truncated = False
        while not truncated:
            _, _, _, truncated, info = made.step([4500])
            faults.append(info["faults"])
        # three reports, and then a fault at the fourth acknowledgement
        assert faults == [0, 0, 1, 1, 1, 2, 2, 2, 3]
        assert list(made.recordings[0].table()["epochs"]) == [4]


def test_flows_without_reports_have_no_episode(driver: Path) -> None:
    with env(driver, scenario(2, 20, "(def (x 1))(when false (report))")) as made:
        with pytest.raises(CcpError, match="no flow of the scenario has made a report"):
            made.reset()
    some = scenario(3)
    some["cases"][1]["acks"] = 1
    with env(driver, some) as made:
        assert [made.reset()[1]["case"] for _ in range(3)] == ["c0", "c2", "c0"]


def test_a_recording_gives_the_same_frames_again(driver: Path) -> None:
    with env(driver) as made:
        made.reset()
        made.reset()
        while not made.step([12_000])[3]:
            pass
        kept = made.recordings[0].recording
    again = ran([driver, "drive"], kept)
    assert again.status == 0 and json.loads(kept.partition(b"\n---\n")[0]) == scenario(2)


# ---- what a step costs


def test_steps_a_second(monkeypatch: pytest.MonkeyPatch, tmp_path: Path) -> None:
    """The package's own part of a step: its program answers at once. At least 20,000 a second of processor time."""
    program = tmp_path / "ccp"
    program.write_text("#!/bin/sh\n", encoding="utf-8")
    program.chmod(0o755)
    answers: List[bytes] = [HEAD.pack(1, 1, 0, 0, 0, 0, 0, 28) + CREATE_FORM.pack(4500, 1500)]
    body = measure_form(1, 2).pack(3, 0, 0, 1, 40_000, 4500, 0, 3000, 30_000)
    measure = HEAD.pack(2, 1, 2, 0, 0, 0, 0, 16 + len(body)) + body

    def write(self: Pipes, data: bytes) -> None:
        # one Measure for each answer
        if len(data) < 100:
            assert struct.unpack_from("<B", data)[0] in (4, 5)
            answers.append(measure)

    monkeypatch.setattr(Pipes, "write", write)
    monkeypatch.setattr(Pipes, "frame", lambda self: answers.pop(0))
    count = 20_000
    with env(program, scenario(2), timeout=None) as made:
        made.reset()
        begun = time.process_time()
        for _ in range(count):
            made.step([6000])
        seconds = time.process_time() - begun
    assert count / seconds > 20_000, "%.0f steps a second" % (count / seconds)
